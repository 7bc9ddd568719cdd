/* For the kit's compiler, which has no headers of its own. */
typedef __SIZE_TYPE__ size_t;
