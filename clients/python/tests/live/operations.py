"""Operations, keys and certificates past the calls of words, against PyKMIP. It prints its checks.

    operations.py HOST PORT CERTIFICATE KEY AUTHORITY FOLDER

FOLDER has the objects of certs.sh; what was got of them is left in the folder that it is run in.
"""
import hashlib
import hmac
import pathlib
import subprocess
import sys
import time
from typing import Any, Callable, List, Type

from metsuwan import Client, InternalError, Item, ItemNotFound, KmipError, ServerError

NAME = 'operations, python'
HMAC_SHA256, ECDSA = 'HMAC_SHA256', 'ECDSA'
VALID, INVALID = 'Valid', 'Invalid'
MAC_GENERATE, SIGN = 0x80, 0x1


def check(holds: bool, what: str) -> None:
    print('%s python: %s' % ('ok     ' if holds else 'FAILED ', what))


def error_of(kind: Type[KmipError], call: Callable[[], Any], what: str) -> KmipError:
    """The error of a call, which has to be of this kind."""
    try:
        call()
        error = KmipError('it was answered')
    except KmipError as raised:
        error = raised
    check(isinstance(error, kind), what)
    return error


def attribute(name: str, value: Any, *kind: str) -> Item:
    return Item('Attribute', [Item('AttributeName', name), Item('AttributeValue', value, *kind)])


def identifier(value: str) -> Item:
    return Item('UniqueIdentifier', value)


def register(kmip: Client, tag: str, form: str, algorithm: str, bits: int, use: int,
             material: bytes) -> str:
    """Registers a key of an algorithm that calls of words do not have."""
    block = Item('KeyBlock', [
        Item('KeyFormatType', form, 'Enumeration'),
        Item('KeyValue', [Item('KeyMaterial', material)]),
        Item('CryptographicAlgorithm', algorithm, 'Enumeration'),
        Item('CryptographicLength', bits)])
    answer = kmip.operation('Register', [
        Item('ObjectType', tag, 'Enumeration'),
        Item('TemplateAttribute', [attribute('Cryptographic Usage Mask', use)]),
        Item(tag, [block])])
    return answer.text_at('UniqueIdentifier')


def is_kept(kmip: Client, key: str, tag: str, algorithm: str, material: bytes) -> None:
    """The attributes and the bytes of a key are those that were registered."""
    what = 'a key of the algorithm %s' % algorithm
    answer = kmip.operation('GetAttributes', [
        identifier(key), Item('AttributeName', 'Cryptographic Algorithm')])
    check(answer.text_at('UniqueIdentifier') == key, what + ': its attributes are its own')
    check(answer.name_at('Attribute.AttributeValue') == algorithm, what + ' has it as an attribute')
    got = kmip.operation('Get', [identifier(key)])
    check(got.name_at('ObjectType') == tag, what + ' is got')
    check(got.bytes_at(tag + '.KeyBlock.KeyValue.KeyMaterial') == material, what + ' as it was')
    by_words = kmip.get(key)
    check(by_words.tree is not None and by_words.key_material == material,
          what + ' is got by the call of words')
    items = [item for item in kmip.attributes(key) if isinstance(item, Item)]
    names = [item.text_at('AttributeName') for item in items]
    check('Cryptographic Algorithm' in names, what + ' has its attributes by that call')


def typed(kmip: Client) -> None:
    """The methods that stand on operations."""
    secret = bytes(range(32))
    key = register(kmip, 'SymmetricKey', 'Raw', HMAC_SHA256, 256, MAC_GENERATE, secret)
    kmip.activate(key)
    wanted = hmac.new(secret, b'hello', hashlib.sha256).digest()
    check(kmip.mac(key, b'hello', algorithm=HMAC_SHA256) == wanted, 'mac')
    key = kmip.create('AES', 256, NAME + ', typed')
    kmip.activate(key)
    how = {'mode': 'CBC', 'padding': 'PKCS5', 'algorithm': 'AES'}
    sealed = kmip.encrypt(key, b'hello', iv=bytes(16), **how)
    check(kmip.decrypt(key, sealed.data, iv=bytes(16), **how) == b'hello', 'encrypt and decrypt')
    pair = kmip.create_rsa_key_pair(2048, NAME + ', typed private', NAME + ', typed public')
    kmip.activate(pair.private_key)
    kmip.activate(pair.public_key)
    signature = kmip.sign(pair.private_key, b'hello', hash='SHA384', padding='PSS').signature_data
    for data, is_valid in ((b'hello', True), (b'Hello', False)):
        said = kmip.verify(pair.public_key, data, signature, hash='SHA384', padding='PSS',
                           algorithm='RSA')
        check(said is is_valid, 'verify: %s' % is_valid)
    base = kmip.create('AES', 256, NAME + ', base', usage='DeriveKey')
    kmip.activate(base)
    derived = kmip.derive_key(base, 'HMAC', algorithm='AES', length=128, data=b'label', salt=b's',
                              hash='SHA256', usage='Encrypt,Decrypt')
    check(len(kmip.get(derived).key_material) == 16, 'derive_key')


def words(kmip: Client) -> None:
    """Calls of the table by words. What comes of them is what openssl and hashlib make."""
    secret, iv, data = bytes(range(32)), bytes(range(16)), b'\0hello\0 %2D=\xff' * 7
    key = kmip.register('symmetric', secret, format='Raw', algorithm='AES', length=256,
                        usage='Encrypt,Decrypt')
    kmip.activate(key)
    how = {'mode': 'CBC', 'padding': 'PKCS5', 'algorithm': 'AES'}
    sealed = kmip.call('encrypt', key, data, iv=iv, **how)
    wanted = subprocess.run(
        ['openssl', 'enc', '-aes-256-cbc', '-K', secret.hex(), '-iv', iv.hex()], input=data,
        stdout=subprocess.PIPE, check=True).stdout
    check(bytes.fromhex(sealed['data']) == wanted, 'encrypt by words does as openssl')
    opened = kmip.call('decrypt', key, wanted, iv=iv, **how)
    check(opened == {'unique_identifier': key, 'data': data.hex().upper()}, 'and so does decrypt')
    typed_words = [word + '=' + name for word, name in how.items()]
    opened = kmip.call_texts('decrypt', key, wanted.hex(), *typed_words, 'iv=' + iv.hex())
    check(bytes.fromhex(opened['data']) == data, 'also where the words were typed')
    batch = kmip.batch().call('decrypt', key, wanted, iv=iv, **how).call('decrypt', key, b'')
    answer, error = batch.send()
    check(answer == {'unique_identifier': key, 'data': data.hex().upper()}, 'also in a batch')
    check(isinstance(error, KmipError), 'in which another one is refused')
    name = NAME + ', 50% of a=b, %2D, - '
    made = kmip.call('create-key', 'AES', 128, name, usage=['Encrypt'])
    check(kmip.locate(name) == [made['unique_identifier']], 'a name is as it was given')
    base = kmip.register_secret(b'pass\0word', usage='DeriveKey')
    kmip.activate(base)
    derived = kmip.call('derive-key', base, 'PBKDF2', hash='SHA256', salt=b'\0salt', iterations=99,
                        length=256, algorithm='AES', usage=['Encrypt', 'Decrypt'])
    wanted = hashlib.pbkdf2_hmac('sha256', b'pass\0word', b'\0salt', 99)
    check(kmip.get(derived['unique_identifier']).key_material == wanted,
          'derive-key does as hashlib')
    listed = kmip.call('attribute-list', key)['attribute_name']
    check('Cryptographic Length' in listed, 'attribute-list has a list')


def keys(kmip: Client, objects: pathlib.Path) -> None:
    secret = bytes(range(32))
    key = register(kmip, 'SymmetricKey', 'Raw', HMAC_SHA256, 256, MAC_GENERATE, secret)
    is_kept(kmip, key, 'SymmetricKey', HMAC_SHA256, secret)
    kmip.activate(key)
    answer = kmip.operation('MAC', [identifier(key), Item('Data', b'hello')])
    wanted = hmac.new(secret, b'hello', hashlib.sha256).digest()
    check(answer.bytes_at('MACData') == wanted, 'a MAC is that of the key')
    der = (objects / 'EC.PKCS8.der').read_bytes()
    key = register(kmip, 'PrivateKey', 'PKCS8', ECDSA, 256, SIGN, der)
    is_kept(kmip, key, 'PrivateKey', ECDSA, der)
    got = kmip.operation('Get', [identifier(key)])
    material = got.bytes_at('PrivateKey.KeyBlock.KeyValue.KeyMaterial')
    pathlib.Path('ec.der').write_bytes(material)


def signatures(kmip: Client) -> None:
    pair = kmip.create_rsa_key_pair(2048, NAME, NAME + ', public')
    kmip.activate(pair.private_key)
    kmip.activate(pair.public_key)
    signature = kmip.sign(pair.private_key, b'hello', hash='SHA512', padding='PSS').signature_data
    how = Item('CryptographicParameters', [
        Item('PaddingMethod', 'PSS', 'Enumeration'),
        Item('HashingAlgorithm', 'SHA512', 'Enumeration'),
        Item('CryptographicAlgorithm', 'RSA', 'Enumeration')])
    for data, wanted in ((b'hello', VALID), (b'Hello', INVALID)):
        answer = kmip.operation('SignatureVerify', [
            identifier(pair.public_key), how, Item('Data', data),
            Item('SignatureData', signature)])
        check(answer.name_at('ValidityIndicator') == wanted,
              'the server says of a signature: %s' % wanted)


def encryption(kmip: Client) -> None:
    key = kmip.create('AES', 256, NAME, usage=['Encrypt', 'Decrypt', 'WrapKey'])
    kmip.activate(key)
    how = Item('CryptographicParameters', [
        Item('BlockCipherMode', 'CBC', 'Enumeration'),
        Item('PaddingMethod', 'PKCS5', 'Enumeration'),
        Item('CryptographicAlgorithm', 'AES', 'Enumeration')])

    def data_of(operation: str, data: bytes) -> bytes:
        answer = kmip.operation(operation, [identifier(key), how, Item('Data', data),
                                            Item('IVCounterNonce', bytes(16))])
        return answer.bytes_at('Data')

    sealed = data_of('Encrypt', b'hello')
    check(len(sealed) == 16 and data_of('Decrypt', sealed) == b'hello',
          'what was encrypted is decrypted')
    # PyKMIP wraps only where the request says that the encoding is none, and else has a reason of
    # KMIP 1.2 that is past the table.
    error = error_of(InternalError, lambda: kmip.get(key, wrap=key), 'a reason past the table')
    check(error.reason == 0x12 and error.message == "Encoding option 'None' is not supported.",
          "the reason and the server's message are told")
    wrapping = Item('KeyWrappingSpecification', [
        Item('WrappingMethod', 'Encrypt', 'Enumeration'),
        Item('EncryptionKeyInformation', [identifier(key)])])
    error = error_of(ServerError, lambda: kmip.operation('Get', [identifier(key), wrapping]),
                     'the same of any operation')
    check("Encoding option 'None'" in str(error), "and the server's message")


def dates(kmip: Client) -> None:
    def made(first: int, last: int) -> List[str]:
        answer = kmip.operation('Locate', [
            attribute('Initial Date', first, 'DateTime'),
            attribute('Initial Date', last, 'DateTime'), attribute('Name', [
                Item('NameValue', NAME),
                Item('NameType', 'UninterpretedTextString', 'Enumeration')])])
        return [item['value'] for item in answer['value'] if item['tag'] == 'UniqueIdentifier']

    now = int(time.time())
    both = sorted(kmip.locate(NAME))
    check(len(both) == 2 and sorted(made(now - 600, now + 600)) == both,
          'objects are located by the date that they were made at')
    check(made(now - 1200, now - 600) == [], 'and none that were made at another')


def certificates(kmip: Client, objects: pathlib.Path) -> None:
    der = (objects / 'Certificate.X509.der').read_bytes()
    made = kmip.register_certificate(der, name=NAME + ', certificate',
                                     usage=['Verify', 'CertificateSign'])
    got = kmip.get(made)
    check((got.object_type, got.certificate_type) == ('Certificate', 'X509'),
          'a certificate is registered')
    check(got.certificate_value == der, 'and given back as it was')
    pathlib.Path('certificate.pem').write_text(got.pem(), encoding='ascii')
    check(kmip.locate(NAME + ', certificate') == [made], 'it is found by its name')
    values = {attribute['name']: attribute['value'] for attribute in kmip.attributes(made)}
    check(values['Cryptographic Usage Mask'] == {'Integer': 0x1002}, 'it has its uses')
    again = kmip.register_certificate(got.pem())
    check(kmip.get(again).certificate_value == der, 'its PEM is registered too')
    kmip.destroy(made)
    kmip.destroy(again)
    error_of(ItemNotFound, lambda: kmip.get(made), 'after it was destroyed it is gone')


def main() -> None:
    host, port, cert, key, ca, folder = sys.argv[1:]
    objects = pathlib.Path(folder)
    with Client(host, port, cert=cert, key=key, ca=ca, timeout=120) as kmip:
        keys(kmip, objects)
        signatures(kmip)
        typed(kmip)
        words(kmip)
        encryption(kmip)
        dates(kmip)
        certificates(kmip, objects)
    print('the end')


if __name__ == '__main__':
    main()
