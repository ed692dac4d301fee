/* assert.h for cpaverify: an assertion that fails calls reach_error.
   Like C's own header it may be included again with NDEBUG set or not (C11 7.2). */
#undef assert
#ifdef NDEBUG
#define assert(test) ((void)0)
#else
#define assert(test) ((test) ? (void)0 : reach_error())
#endif
#ifndef CPAVERIFY_ASSERT_H
#define CPAVERIFY_ASSERT_H
void reach_error(void);
#endif
