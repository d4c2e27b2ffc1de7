/* The assertions that a compiler checks; a word of C++ itself. */
#ifndef ASSERT_H
#define ASSERT_H

#ifndef __cplusplus
#define static_assert _Static_assert
#endif

#endif
