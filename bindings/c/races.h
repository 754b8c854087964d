/*
 * Reports to ThreadSanitizer what a call of the library reads and writes.
 *
 * The library is not compiled with a sanitizer, so ThreadSanitizer does not see its loads and
 * stores. A program calls reads() and writes() before a call, for each buffer and struct that the
 * call may read or write, as iim.h states: then ThreadSanitizer reports two calls that use the same
 * memory and that nothing orders, whether or not they run at the same moment. Without
 * ThreadSanitizer both do nothing.
 */
#ifndef RACES_H
#define RACES_H

#include <stddef.h>

#if defined(__SANITIZE_THREAD__)
#define SANITIZES_THREADS 1
#elif defined(__has_feature)
#if __has_feature(thread_sanitizer)
#define SANITIZES_THREADS 1
#endif
#endif

#ifdef SANITIZES_THREADS
void __tsan_read_range(void *at, unsigned long count);
void __tsan_write_range(void *at, unsigned long count);

static inline void reads(const void *at, size_t count) { __tsan_read_range((void *)(size_t)at, count); }

static inline void writes(void *at, size_t count) { __tsan_write_range(at, count); }
#else
static inline void reads(const void *at, size_t count) { (void)at, (void)count; }

static inline void writes(void *at, size_t count) { (void)at, (void)count; }
#endif

#endif
