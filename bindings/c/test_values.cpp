// The same caller, in C++.
#include "test_values.c"
