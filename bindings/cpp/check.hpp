// What the tests in C++ share.
#ifndef CHECK_HPP
#define CHECK_HPP

#include <cstdio>

inline int checks = 0, failed = 0;

inline void check(bool holds, const char* file, int line, const char* what) {
    ++checks;
    if (holds) return;
    ++failed;
    std::printf("%s:%d: %s\n", file, line, what);
}

#define CHECK(...) check(static_cast<bool>(__VA_ARGS__), __FILE__, __LINE__, #__VA_ARGS__)

/// Prints how many checks there were, and answers the program's status.
inline int end_of_checks() {
    std::printf("%d checks, %d failed\n", checks, failed);
    return failed == 0 ? 0 : 1;
}

#endif
