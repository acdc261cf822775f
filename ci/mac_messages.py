"""COSE_Mac0 messages of each algorithm, by the standard library of Python, for the tests and for what looks at secrets and tags."""
import hmac

from openssl_messages import cbor

# number, hash function and bytes of the tag (RFC 9053 section 3.1)
ALGORITHMS = [(4, "sha256", 8), (5, "sha256", 32), (6, "sha384", 48), (7, "sha512", 64)]
PAYLOAD = b"a payload"


def tag(alg, secret, protected, data, payload):
    """The authentication tag (RFC 9052 section 6.3)."""
    function, length = next((function, length) for number, function, length in ALGORITHMS if number == alg)
    return hmac.new(secret, cbor(("MAC0", protected, data, payload)), function).digest()[:length]


def message(alg, secret):
    """A COSE_Mac0 with this algorithm."""
    protected = cbor({1: alg})
    return b"\xd1" + cbor((protected, {}, PAYLOAD, tag(alg, secret, protected, b"", PAYLOAD)))
