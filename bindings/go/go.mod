// The module of bindings/go: nothing but Go's own library, and the C library that pkg-config knows as cose.
module cose

go 1.19
