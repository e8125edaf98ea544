// The same program as C++: the header and every call compiled and linked by a C++ compiler.
#include "desk.c"
