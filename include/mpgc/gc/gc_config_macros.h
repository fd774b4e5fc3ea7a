/* bdwgc's gc_config_macros.h: what a program says before gc.h of its threads, and how names are declared. gc.h reads it. */
#ifndef GC_CONFIG_MACROS_H
#define GC_CONFIG_MACROS_H

/* A program of several threads defines GC_THREADS, or one of its older names. */
#if defined(LINUX_THREADS) && !defined(GC_LINUX_THREADS)
#define GC_LINUX_THREADS
#endif
#if defined(GC_LINUX_THREADS) && !defined(GC_THREADS)
#define GC_THREADS
#endif
#undef GC_PTHREADS
#ifdef GC_THREADS
#define GC_PTHREADS
#ifndef GC_LINUX_THREADS
#define GC_LINUX_THREADS
#endif
#ifndef _REENTRANT
#define _REENTRANT
#endif
#define GC_HAVE_PTHREAD_EXIT
#define GC_PTHREAD_EXIT_ATTRIBUTE GC_ATTR_NORETURN
#endif

#define GC_CALL
#define GC_CALLBACK GC_CALL
#if defined(__GNUC__) && defined(__GNUC_MINOR__)
#define GC_GNUC_PREREQ(major, minor) ((__GNUC__ << 16) + __GNUC_MINOR__ >= ((major) << 16) + (minor))
#else
#define GC_GNUC_PREREQ(major, minor) 0
#endif

/* What the compiler may know of a function. */
#ifdef __GNUC__
#define GC_API extern __attribute__((__visibility__("default")))
#ifdef GC_OOM_FUNC_RETURNS_ALIAS /* the program's GC_oom_fn answers memory that has another name too */
#define GC_ATTR_MALLOC
#else
#define GC_ATTR_MALLOC __attribute__((__malloc__))
#endif
#define GC_ATTR_ALLOC_SIZE(n) __attribute__((__alloc_size__(n)))
#define GC_ATTR_CALLOC_SIZE(n, m) __attribute__((__alloc_size__(n, m)))
#define GC_ATTR_NONNULL(n) __attribute__((__nonnull__(n)))
#define GC_ATTR_CONST __attribute__((__const__))
#define GC_ATTR_NORETURN __attribute__((__noreturn__))
#define GC_ATTR_DEPRECATED __attribute__((__deprecated__))
#else
#define GC_API extern
#define GC_ATTR_MALLOC
#define GC_ATTR_ALLOC_SIZE(n)
#define GC_ATTR_CALLOC_SIZE(n, m)
#define GC_ATTR_NONNULL(n)
#define GC_ATTR_CONST
#define GC_ATTR_NORETURN
#define GC_ATTR_DEPRECATED
#endif

#ifdef __cplusplus
#ifndef GC_ATTR_EXPLICIT
#if __cplusplus >= 201103L && !defined(__clang__)
#define GC_ATTR_EXPLICIT explicit
#else
#define GC_ATTR_EXPLICIT
#endif
#endif
#ifndef GC_NOEXCEPT
#if __cplusplus >= 201103L
#define GC_NOEXCEPT noexcept
#else
#define GC_NOEXCEPT throw()
#endif
#endif
#endif

#endif
