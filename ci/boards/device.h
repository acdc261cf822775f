/* On a board whose messages are fed alone (FED_ONLY) a verifier is that for devices: the type of its handle says which
 * calls are meant. */
#ifndef DEVICE_H
#define DEVICE_H

#include "cose.h"

#ifdef FED_ONLY
#define cose_verifier cose_device_verifier
#define cose_verifier_size cose_device_verifier_size
#define cose_verifier_align cose_device_verifier_align
#define cose_begin cose_device_begin
#define cose_needs_sha512 cose_device_needs_sha512
#endif

#endif
