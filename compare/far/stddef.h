/* what face/taylor.h needs of it, for a compiler without its headers */
typedef __SIZE_TYPE__ size_t;
