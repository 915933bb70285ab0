typedef struct __sharc_va_list va_list;
#define va_start(list, last) va_start(list)
#define va_end(list) va_end(list)
#define va_copy(to, from) va_copy(to, from)
#define va_arg(list, type) va_arg(list, (type) 0)
