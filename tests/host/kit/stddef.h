/* What the test needs of C's headers, where the machine has none: the kit's compiler comes without them. */
#ifndef KIT_STDDEF_H
#define KIT_STDDEF_H
typedef __SIZE_TYPE__ size_t;
#define NULL ((void *)0)
#endif
