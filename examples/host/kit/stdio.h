/* For the kit's compiler, which has no headers of its own. */
int printf(const char *restrict format, ...);
