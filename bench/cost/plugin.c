/* A guest whose functions do next to nothing, so that what is measured is the call. */
#define EXPORT(name) __attribute__((export_name(#name)))

EXPORT(nothing) void nothing(void) {}
EXPORT(add) int add(int a, int b) { return a + b; }
EXPORT(uv_work) int uv_work(int op) { return op; }
