/* For the comparison of signatures, where a compiler has no C library. In WebAssembly a length has 64 bits, as in the proved code, and not the 32 of a
   pointer there: C programs for WebAssembly cannot use the header, and JavaScript hands lengths over as BigInt. */
#ifdef __wasm32__
typedef unsigned long long size_t;
#else
typedef __SIZE_TYPE__ size_t;
#endif
