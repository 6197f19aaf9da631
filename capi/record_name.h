/* The name of the files of record_wrap.c, `loop` unless a host sets another, for the loops that this thread creates next: FOLDER/NAME.N. */
#ifndef WASMLOOP_RECORD_NAME_H
#define WASMLOOP_RECORD_NAME_H

extern _Thread_local const char *wasmloop_record_name;

#endif
