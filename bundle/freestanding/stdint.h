/* For the comparison of signatures, where a compiler has no C library. */
typedef unsigned char uint8_t;
typedef short int16_t;
