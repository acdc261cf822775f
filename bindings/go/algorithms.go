// The algorithms.

package cose

// Algorithm is the number of an algorithm (RFC 9053 sections 2.1 and 3.1, RFC 9864 section 2.1).
type Algorithm int32

// The algorithms.
const (
	// made by ci/edge_tables: algorithms
	HMAC256_64 Algorithm = 4
	HMAC256    Algorithm = 5
	HMAC384    Algorithm = 6
	HMAC512    Algorithm = 7
	ES256      Algorithm = -7
	ES384      Algorithm = -35
	ES512      Algorithm = -36
	ESP256     Algorithm = -9
	ESP384     Algorithm = -51
	ESP512     Algorithm = -52
	// end of what ci/edge_tables makes
)
