"""A KMIP client: Python's ``ssl`` moves the bytes, and a proved library makes and checks them.

    from metsuwan import Client

    with Client('localhost', 5696, cert='client.pem', key='client.key', ca='ca.pem') as kmip:
        pair = kmip.create_rsa_key_pair(2048, 'issuing', 'issuing, public')
        kmip.activate(pair.private_key)
        signature = kmip.sign(pair.private_key, b'to be signed').signature_data
"""
import logging

from .aio import AsyncBatch, AsyncClient, AsyncPool
from .batch import Batch
from .client import Client
from .errors import (ConnectError, ConnectionLost, DeserializeError, GrammarError, InternalError,
                     ItemNotFound, KmipError, LibraryError, MissingValue, NotDone, NotRecorded,
                     OtherObject, Reason, Refused, RequestWriteError, ResponseReadError,
                     SerializeError, ServerError, Undone)
from .items import Item
from .objects import KeyPair, ManagedObject, Signed
from .pool import Pool
from .records import record_file
from .version import __version__

# What nobody listens to is not written to standard error.
logging.getLogger('metsuwan').addHandler(logging.NullHandler())

__all__ = [
    'AsyncBatch', 'AsyncClient', 'AsyncPool', 'Batch', 'Client', 'ConnectError', 'ConnectionLost',
    'DeserializeError', 'GrammarError', 'InternalError', 'Item', 'ItemNotFound', 'KeyPair',
    'KmipError', 'LibraryError', 'ManagedObject', 'MissingValue', 'NotDone', 'NotRecorded',
    'OtherObject', 'Pool', 'Reason', 'Refused', 'RequestWriteError', 'ResponseReadError',
    'SerializeError', 'ServerError', 'Signed', 'Undone', '__version__',
    'record_file',
]
