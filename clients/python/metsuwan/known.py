"""That it is known who a server is, and what it says of the client's certificate."""
from __future__ import annotations

import ssl
from typing import Optional

# A cipher of less encrypts nothing, or weakly.
LEAST_BITS = 112
# Alerts by which a server refuses the client's certificate (RFC 8446, 6.2), by OpenSSL's reasons.
REFUSALS = {
    'SSLV3_ALERT_BAD_CERTIFICATE': 'bad certificate',
    'SSLV3_ALERT_UNSUPPORTED_CERTIFICATE': 'unsupported certificate',
    'SSLV3_ALERT_CERTIFICATE_REVOKED': 'certificate revoked',
    'SSLV3_ALERT_CERTIFICATE_EXPIRED': 'certificate expired',
    'SSLV3_ALERT_CERTIFICATE_UNKNOWN': 'certificate unknown',
    'TLSV1_ALERT_UNKNOWN_CA': 'unknown CA',
    'TLSV1_ALERT_ACCESS_DENIED': 'access denied',
    'TLSV13_ALERT_CERTIFICATE_REQUIRED': 'certificate required',
}


class CertificateRefused(OSError):
    """The server refused the client's certificate, and has read nothing of what was sent. Under TLS
    1.3 that comes after the handshake is done here, and before the server reads anything else
    (RFC 8446, 4.4.2.4 and 4.4.3)."""


def refusal_of(error: ssl.SSLError) -> Optional[CertificateRefused]:
    """The refusal that an error of TLS stands for."""
    alert = REFUSALS.get(error.reason or '')
    return alert and CertificateRefused('the server refused the certificate: ' + alert) or None


def check_context(context: ssl.SSLContext) -> None:
    """A context verifies the server's certificate and its name, and asks for no certificate later.

    :raises ValueError: it does not
    """
    if not isinstance(context, ssl.SSLContext):
        raise TypeError('a context is an ssl.SSLContext, and %s was given'
                        % type(context).__name__)
    if context.verify_mode != ssl.CERT_REQUIRED:
        raise ValueError('a context has to verify the server: verify_mode is not CERT_REQUIRED')
    if not context.check_hostname:
        raise ValueError('a context has to verify the name of the server: check_hostname is not '
                         'set')
    if context.post_handshake_auth:
        raise ValueError('a context has no post_handshake_auth: a certificate that is refused '
                         'after the handshake may be refused after a request was read')


def check_server(tls: ssl.SSLObject) -> None:
    """After a handshake it is known who the server is, and what is sent is for it alone: whatever
    the context and OpenSSL's configuration say.

    :raises OSError: it is not
    """
    try:
        check_context(tls.context)
    except ValueError as error:     # it was changed since it was given
        raise OSError('TLS: %s' % error) from None
    version, cipher = tls.version(), tls.cipher()
    if version not in ('TLSv1.2', 'TLSv1.3'):
        raise OSError('TLS: %s is older than TLS 1.2' % version)
    if cipher is None or cipher[2] < LEAST_BITS:
        raise OSError('TLS: %s encrypts nothing, or weakly' % (cipher and cipher[0]))
    # Then no certificate is shown again.
    if tls.session_reused:
        raise OSError('TLS: the session is an earlier one')
    if not tls.getpeercert(True):
        raise OSError('TLS: the server has no certificate')
