/* For the kit's compiler, which has no headers of its own. */
#define bool _Bool
#define true 1
#define false 0
