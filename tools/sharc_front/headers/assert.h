#undef assert
#ifdef NDEBUG
#define assert(e) ((void)0)
#else
#define assert(e) ((e) ? (void)0 : __sharc_stop("assert"))
#endif
#define static_assert _Static_assert
