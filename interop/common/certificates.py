"""A certificate authority of our own, and a certificate for localhost: all peers take the pair."""
import base64
import hashlib
import subprocess

from common.folders import CERTIFICATES

OPENSSL = '''
set -e
new() { openssl req -newkey ec -pkeyopt ec_paramgen_curve:prime256v1 -nodes "$@"; }
new -x509 -keyout root-key.pem -out root.pem -days 365 -subj /CN=interop-root \\
    -addext basicConstraints=critical,CA:TRUE -addext keyUsage=critical,keyCertSign,cRLSign
new -keyout key.pem -out request.pem -subj /CN=localhost
printf '%s\\n' subjectAltName=DNS:localhost,IP:127.0.0.1 basicConstraints=CA:FALSE keyUsage=digitalSignature \\
    extendedKeyUsage=serverAuth > extensions
openssl x509 -req -in request.pem -CA root.pem -CAkey root-key.pem -CAcreateserial -days 90 -extfile extensions -out cert.pem
openssl x509 -in cert.pem -outform der -out cert.der
openssl x509 -in root.pem -outform der -out root.der
openssl pkcs8 -topk8 -nocrypt -in key.pem -outform der -out key.der
openssl x509 -in cert.pem -pubkey -noout | openssl pkey -pubin -outform der -out public.der
'''


def make():
    """Makes root.pem, root.der, cert.pem, cert.der, key.pem and key.der if they are not there."""
    if not (CERTIFICATES / 'public.der').is_file():
        CERTIFICATES.mkdir(parents=True, exist_ok=True)
        subprocess.run(['sh', '-c', OPENSSL], cwd=CERTIFICATES, check=True, capture_output=True)
    return CERTIFICATES


def public_key_hash():
    """The hash by which Chromium is told to trust the certificate."""
    digest = hashlib.sha256((CERTIFICATES / 'public.der').read_bytes()).digest()
    return base64.b64encode(digest).decode('ascii')
