"""PyKMIP's own encodings of requests and responses of all its operations of KMIP 1.0 to 1.2.

Messages, by a name, are what `messages` gives. Each has what PyKMIP can write in it.
"""
import itertools
import warnings

warnings.simplefilter('ignore')
from kmip.core import attributes, enums, misc, objects, primitives, secrets  # noqa: E402
from kmip.core.enums import AttributeType, KMIPVersion, Operation, Tags  # noqa: E402
from kmip.core.factories.attributes import AttributeFactory  # noqa: E402
from kmip.core.messages import contents, payloads  # noqa: E402
from kmip.core.messages import messages as parts  # noqa: E402
from kmip.core.utils import BytearrayStream  # noqa: E402

VERSIONS = (KMIPVersion.KMIP_1_0, KMIPVersion.KMIP_1_1, KMIPVersion.KMIP_1_2)
DATE = 1700000000
factory = AttributeFactory()


def attribute(name, value, index=None):
    return factory.create_attribute(name, value, index)


PARAMETERS = attributes.CryptographicParameters(
    block_cipher_mode=enums.BlockCipherMode.CBC, padding_method=enums.PaddingMethod.PKCS5,
    hashing_algorithm=enums.HashingAlgorithm.SHA_256, key_role_type=enums.KeyRoleType.KEK,
    digital_signature_algorithm=enums.DigitalSignatureAlgorithm.SHA256_WITH_RSA_ENCRYPTION,
    cryptographic_algorithm=enums.CryptographicAlgorithm.AES, random_iv=True, iv_length=96,
    tag_length=128, fixed_field_length=32, invocation_field_length=64, counter_length=0,
    initial_counter_value=1)
NAME = attributes.Name.create('a "key" & <more>', enums.NameType.UNINTERPRETED_TEXT_STRING)
DATES = (AttributeType.INITIAL_DATE, AttributeType.ACTIVATION_DATE,
         AttributeType.PROCESS_START_DATE, AttributeType.PROTECT_STOP_DATE,
         AttributeType.DEACTIVATION_DATE, AttributeType.DESTROY_DATE,
         AttributeType.COMPROMISE_OCCURRENCE_DATE, AttributeType.COMPROMISE_DATE,
         AttributeType.ARCHIVE_DATE, AttributeType.LAST_CHANGE_DATE)
ATTRIBUTES = [
    attribute(AttributeType.UNIQUE_IDENTIFIER, '4'), attribute(AttributeType.NAME, NAME, 0),
    attribute(AttributeType.OBJECT_TYPE, enums.ObjectType.SYMMETRIC_KEY),
    attribute(AttributeType.CRYPTOGRAPHIC_ALGORITHM, enums.CryptographicAlgorithm.HMAC_SHA256),
    attribute(AttributeType.CRYPTOGRAPHIC_LENGTH, 256),
    attribute(AttributeType.CRYPTOGRAPHIC_PARAMETERS, {
        'block_cipher_mode': enums.BlockCipherMode.GCM, 'random_iv': False}),
    attribute(AttributeType.CERTIFICATE_TYPE, enums.CertificateType.X_509),
    attribute(AttributeType.CERTIFICATE_LENGTH, 1000), attribute(AttributeType.DIGEST, None),
    attribute(AttributeType.OPERATION_POLICY_NAME, 'default'),
    attribute(AttributeType.CRYPTOGRAPHIC_USAGE_MASK, [
        enums.CryptographicUsageMask.MAC_GENERATE, enums.CryptographicUsageMask.MAC_VERIFY]),
    attribute(AttributeType.LEASE_TIME, 3600),
    attribute(AttributeType.STATE, enums.State.COMPROMISED),
    attribute(AttributeType.OBJECT_GROUP, 'a group'), attribute(AttributeType.FRESH, True),
    attribute(AttributeType.APPLICATION_SPECIFIC_INFORMATION, {
        'application_namespace': 'ssl', 'application_data': 'www.example.com'}),
    attribute(AttributeType.CONTACT_INFORMATION, 'Joe'),
    attribute(AttributeType.CUSTOM_ATTRIBUTE, 'x'),
] + [attribute(name, date) for date, name in enumerate(DATES, -2)]
TEMPLATE = objects.TemplateAttribute(names=[NAME], attributes=ATTRIBUTES)


def template_of(tag):
    return objects.TemplateAttribute(attributes=ATTRIBUTES[:5], tag=tag)


def block(form, material, algorithm, bits):
    """A key block, with a wrapping."""
    key = objects.EncryptionKeyInformation('7', PARAMETERS)
    wrapping = objects.KeyWrappingData(
        enums.WrappingMethod.ENCRYPT_THEN_MAC_SIGN, key,
        objects.MACSignatureKeyInformation('8', PARAMETERS), b'\x01\x02', b'\x03' * 16,
        enums.EncodingOption.NO_ENCODING)
    return objects.KeyBlock(
        misc.KeyFormatType(form), contents.KeyCompressionType(
            enums.KeyCompressionType.EC_PUBLIC_KEY_TYPE_UNCOMPRESSED),
        objects.KeyValue(objects.KeyMaterial(material), ATTRIBUTES[:2]),
        attributes.CryptographicAlgorithm(algorithm), attributes.CryptographicLength(bits),
        wrapping)


AES, RSA = enums.CryptographicAlgorithm.AES, enums.CryptographicAlgorithm.RSA
RAW = block(enums.KeyFormatType.RAW, bytes(range(16)), AES, 128)
OBJECTS = {
    enums.ObjectType.CERTIFICATE: secrets.Certificate(
        enums.CertificateType.X_509, bytes.fromhex('3003020105')),
    enums.ObjectType.SYMMETRIC_KEY: secrets.SymmetricKey(RAW),
    enums.ObjectType.PUBLIC_KEY: secrets.PublicKey(
        block(enums.KeyFormatType.PKCS_1, b'der', RSA, 2048)),
    enums.ObjectType.PRIVATE_KEY: secrets.PrivateKey(
        block(enums.KeyFormatType.PKCS_8, b'', RSA, 4096)),
    enums.ObjectType.SPLIT_KEY: secrets.SplitKey(
        4, 1, 2, enums.SplitKeyMethod.POLYNOMIAL_SHARING_PRIME_FIELD, (1 << 64) + 13, RAW),
    enums.ObjectType.TEMPLATE: secrets.Template(ATTRIBUTES),
    enums.ObjectType.SECRET_DATA: secrets.SecretData(
        secrets.SecretData.SecretDataType(enums.SecretDataType.PASSWORD), RAW),
    enums.ObjectType.OPAQUE_DATA: secrets.OpaqueObject(
        secrets.OpaqueObject.OpaqueDataType(enums.OpaqueDataType.NONE),
        secrets.OpaqueObject.OpaqueDataValue(b'\x00' * 9)),
}


def identifiers(request, response):
    """Payloads that have an identifier alone."""
    return [request('4'), request()], [response('4')]


def about_keys():
    """The operations that make and move objects."""
    both = (template_of(Tags.PRIVATE_KEY_TEMPLATE_ATTRIBUTE),
            template_of(Tags.PUBLIC_KEY_TEMPLATE_ATTRIBUTE))
    common = template_of(Tags.COMMON_TEMPLATE_ATTRIBUTE)
    wrapping = objects.KeyWrappingSpecification(
        enums.WrappingMethod.ENCRYPT, objects.EncryptionKeyInformation('7', PARAMETERS), None,
        ['Name'], enums.EncodingOption.TTLV_ENCODING)
    derivation = attributes.DerivationParameters(PARAMETERS, b'iv', b'data', b'salt', 1000)
    kind = enums.ObjectType.SYMMETRIC_KEY
    yield (Operation.CREATE, [payloads.CreateRequestPayload(kind, TEMPLATE)],
           [payloads.CreateResponsePayload(kind, '4', TEMPLATE)])
    yield (Operation.CREATE_KEY_PAIR, [payloads.CreateKeyPairRequestPayload(common, *both)],
           [payloads.CreateKeyPairResponsePayload('1', '2', *both)])
    yield (Operation.REGISTER,
           [payloads.RegisterRequestPayload(kind, TEMPLATE, OBJECTS[kind]) for kind in OBJECTS],
           [payloads.RegisterResponsePayload('4', TEMPLATE)])
    yield (Operation.REKEY, [payloads.RekeyRequestPayload('4', 3600, TEMPLATE)],
           [payloads.RekeyResponsePayload('5', TEMPLATE)])
    typed = (objects.PrivateKeyTemplateAttribute(attributes=ATTRIBUTES),
             objects.PublicKeyTemplateAttribute(attributes=ATTRIBUTES))
    yield (Operation.REKEY_KEY_PAIR, [payloads.RekeyKeyPairRequestPayload(
        attributes.PrivateKeyUniqueIdentifier('1'), misc.Offset(5),
        objects.CommonTemplateAttribute(attributes=ATTRIBUTES), *typed)],
        [payloads.RekeyKeyPairResponsePayload('1', '2', *both)])
    yield (Operation.DERIVE_KEY, [payloads.DeriveKeyRequestPayload(
        kind, ['1', '2'], enums.DerivationMethod.HMAC, derivation, TEMPLATE)],
        [payloads.DeriveKeyResponsePayload('5', TEMPLATE)])
    yield (Operation.GET, [payloads.GetRequestPayload(
        '4', enums.KeyFormatType.RAW,
        enums.KeyCompressionType.EC_PUBLIC_KEY_TYPE_X9_62_HYBRID, wrapping)],
        [payloads.GetResponsePayload(kind, '4', OBJECTS[kind]) for kind in OBJECTS])


def about_attributes():
    """The operations that find objects, and read and change their attributes."""
    yield (Operation.LOCATE, [payloads.LocateRequestPayload(
        5, None, 3, enums.ObjectGroupMember.GROUP_MEMBER_FRESH, ATTRIBUTES)],
        [payloads.LocateResponsePayload(None, ['4', '5']), payloads.LocateResponsePayload()])
    yield (Operation.GET_ATTRIBUTES, [payloads.GetAttributesRequestPayload('4', ['Name', 'State'])],
           [payloads.GetAttributesResponsePayload('4', ATTRIBUTES)])
    yield (Operation.GET_ATTRIBUTE_LIST, [payloads.GetAttributeListRequestPayload('4')],
           [payloads.GetAttributeListResponsePayload('4', ['Name', 'State'])])
    yield (Operation.MODIFY_ATTRIBUTE,
           [payloads.ModifyAttributeRequestPayload('4', ATTRIBUTES[1])],
           [payloads.ModifyAttributeResponsePayload('4', ATTRIBUTES[1])])
    yield (Operation.DELETE_ATTRIBUTE, [payloads.DeleteAttributeRequestPayload('4', 'Name', 1)],
           [payloads.DeleteAttributeResponsePayload('4', ATTRIBUTES[1])])
    yield (Operation.CHECK, [payloads.CheckRequestPayload('4', (1 << 62) + 1, 12, 60)],
           [payloads.CheckResponsePayload('4', -1, 12, 0)])
    yield (Operation.OBTAIN_LEASE, *[[payload] for payload in (
        payloads.ObtainLeaseRequestPayload('4'),
        payloads.ObtainLeaseResponsePayload('4', (1 << 32) - 1, DATE))])
    yield (Operation.GET_USAGE_ALLOCATION, [payloads.GetUsageAllocationRequestPayload('4', 1000)],
           [payloads.GetUsageAllocationResponsePayload('4')])


def about_states():
    """The operations that change the state of an object, or of a request."""
    reason = objects.RevocationReason(enums.RevocationReasonCode.KEY_COMPROMISE, 'weg')
    identifier = attributes.UniqueIdentifier('4')
    yield (Operation.ACTIVATE, [payloads.ActivateRequestPayload(identifier)],
           [payloads.ActivateResponsePayload(identifier)])
    yield (Operation.REVOKE, [payloads.RevokeRequestPayload(
        identifier, reason, primitives.DateTime(DATE, Tags.COMPROMISE_OCCURRENCE_DATE))],
        [payloads.RevokeResponsePayload(identifier)])
    yield (Operation.DESTROY, [payloads.DestroyRequestPayload(identifier)],
           [payloads.DestroyResponsePayload(identifier)])
    yield (Operation.ARCHIVE, *identifiers(payloads.ArchiveRequestPayload,
                                           payloads.ArchiveResponsePayload))
    yield (Operation.RECOVER, *identifiers(payloads.RecoverRequestPayload,
                                           payloads.RecoverResponsePayload))
    yield (Operation.CANCEL, [payloads.CancelRequestPayload(b'\x01')],
           [payloads.CancelResponsePayload(b'\x01', enums.CancellationResult.UNABLE_TO_CANCEL)])
    yield Operation.POLL, [payloads.PollRequestPayload(b'\x00' * 8)], []


def about_data():
    """The operations on data, and those about the server."""
    data, nonce = b'\x01\x02\x03', b'\x00' * 16
    yield (Operation.ENCRYPT, [payloads.EncryptRequestPayload('4', PARAMETERS, data, nonce)],
           [payloads.EncryptResponsePayload('4', data, nonce)])
    yield (Operation.DECRYPT, [payloads.DecryptRequestPayload('4', PARAMETERS, data, nonce)],
           [payloads.DecryptResponsePayload('4', b'')])
    yield (Operation.SIGN, [payloads.SignRequestPayload('4', PARAMETERS, data)],
           [payloads.SignResponsePayload('4', data)])
    yield (Operation.SIGNATURE_VERIFY, [payloads.SignatureVerifyRequestPayload(
        '4', PARAMETERS, data, None, data, data, True, False)],
        [payloads.SignatureVerifyResponsePayload('4', validity, data, data)
         for validity in enums.ValidityIndicator])
    identifier = attributes.UniqueIdentifier('4')
    yield (Operation.MAC, [payloads.MACRequestPayload(identifier, PARAMETERS, objects.Data(data))],
           [payloads.MACResponsePayload(identifier, objects.MACData(data))])
    versions = [contents.ProtocolVersion(1, minor) for minor in (2, 1, 0)]
    yield (Operation.DISCOVER_VERSIONS, [payloads.DiscoverVersionsRequestPayload(versions)],
           [payloads.DiscoverVersionsResponsePayload(versions)])
    extension = objects.ExtensionInformation(
        objects.ExtensionName('an extension'), objects.ExtensionTag(0x54aabb),
        objects.ExtensionType(7))
    yield (Operation.QUERY, [payloads.QueryRequestPayload(list(enums.QueryFunction)[:3])],
           [payloads.QueryResponsePayload(
               operations=list(Operation), object_types=list(enums.ObjectType),
               vendor_identification='a "vendor" & <co>', application_namespaces=['a', 'b'],
               extension_information=[extension]), payloads.QueryResponsePayload()])


def bytes_of(message, version):
    stream = BytearrayStream()
    message.write(stream, kmip_version=version)
    return stream.buffer


def request_of(version, operation, payload):
    credential = objects.Credential(
        enums.CredentialType.USERNAME_AND_PASSWORD,
        objects.UsernamePasswordCredential('alice', 'a password'))
    header = parts.RequestHeader(
        version_of(version),
        contents.MaximumResponseSize(1 << 20), contents.AsynchronousIndicator(False),
        contents.Authentication([credential]),
        contents.BatchErrorContinuationOption(enums.BatchErrorContinuationOption.STOP),
        contents.BatchOrderOption(True), contents.TimeStamp(DATE), contents.BatchCount(1))
    item = parts.RequestBatchItem(contents.Operation(operation), contents.UniqueBatchItemID(b'\1'),
                                  payload)
    return bytes_of(parts.RequestMessage(header, [item]), version)


def response_of(version, operation, payload, status=enums.ResultStatus.SUCCESS, **more):
    header = parts.ResponseHeader(version_of(version), contents.TimeStamp(DATE),
                                  contents.BatchCount(1))
    item = parts.ResponseBatchItem(
        contents.Operation(operation), contents.UniqueBatchItemID(b'\1\2\3\4\5\6\7\x08\x09'),
        contents.ResultStatus(status), response_payload=payload, **more)
    return bytes_of(parts.ResponseMessage(header, [item]), version)


def version_of(version):
    return contents.ProtocolVersion(1, int(version.value * 10) % 10)


def failures(version):
    for reason in enums.ResultReason:
        yield response_of(version, Operation.GET, None, enums.ResultStatus.OPERATION_FAILED,
                          result_reason=contents.ResultReason(reason),
                          result_message=contents.ResultMessage('no: ' + reason.name))
    yield response_of(version, Operation.CREATE, None, enums.ResultStatus.OPERATION_PENDING,
                      async_correlation_value=contents.AsynchronousCorrelationValue(b'\x09'))


def messages():
    """The name of each operation and version, with all messages of it."""
    groups = (about_keys(), about_attributes(), about_states(), about_data())
    for operation, requests, responses in itertools.chain.from_iterable(groups):
        for version in VERSIONS:
            made = [request_of(version, operation, payload) for payload in requests]
            made += [response_of(version, operation, payload) for payload in responses]
            yield '%s, %s' % (operation.name, version.name), made
    yield 'failures', list(failures(KMIPVersion.KMIP_1_2))


if __name__ == '__main__':
    for name, made in messages():
        print(name, len(made), sum(map(len, made)))
