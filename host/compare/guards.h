/* Tells valgrind, where it watches, which bytes may be touched and which hold nothing yet; without its headers these do nothing. */
#ifndef GUARDS_H
#define GUARDS_H

#include <stddef.h>

#if __has_include(<valgrind/memcheck.h>)
#include <valgrind/memcheck.h>
#define CLOSE(at, length) ((void)VALGRIND_MAKE_MEM_NOACCESS((at), (length)))
#define OPEN(at, length) ((void)VALGRIND_MAKE_MEM_DEFINED((at), (length)))
#define BLUR(at, length) ((void)VALGRIND_MAKE_MEM_UNDEFINED((at), (length)))
#else
#define CLOSE(at, length) ((void)(at), (void)(length))
#define OPEN(at, length) ((void)(at), (void)(length))
#define BLUR(at, length) ((void)(at), (void)(length))
#endif

#endif
