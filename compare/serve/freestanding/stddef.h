/* What tanvelis.h takes from this header, for a compiler that comes without headers. */
typedef __SIZE_TYPE__ size_t;
