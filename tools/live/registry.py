"""What the fake servers are called by, and KMIP's numbers of the operations that they answer."""

FAKES = {}              # over TLS, by the name of the function
OWN_IDS = set()         # those of them whose answers have the Unique Batch Item ID that they say, and no other
PLAIN = {}              # those that get the connection before there is TLS
QUERY, CREATE_KEY_PAIR, GET, ACTIVATE, SIGN = 0x18, 0x02, 0x0A, 0x12, 0x21
REGISTER, LOCATE, GET_ATTRIBUTES, REVOKE, DESTROY, SIGNATURE_VERIFY = 0x03, 0x08, 0x0B, 0x13, 0x14, 0x22
ADD_ATTRIBUTE, MODIFY_ATTRIBUTE, DELETE_ATTRIBUTE, RNG_RETRIEVE = 0x0D, 0x0E, 0x0F, 0x25


def fake(function):
    FAKES[function.__name__] = function
    return function


def own_ids(function):
    OWN_IDS.add(function.__name__)
    return fake(function)


def plain(function):
    PLAIN[function.__name__] = function
    return function
