#!/usr/bin/python3
"""PyKMIP's engine behind a plain socket, as a server that others wrote.

    bench/pykmip_server.py DATABASE [--raised]

It needs Debian's python3-pykmip. It prints `listening PORT`, on 127.0.0.1, and answers one connection after the
other. PyKMIP speaks KMIP up to 2.0, over TLS. Here it speaks without TLS, and with --raised it takes a message of
KMIP 2.1 for one of 2.0.
"""
import logging
import socket
import struct
import sys
import warnings

warnings.simplefilter('ignore')

from kmip.core import enums, exceptions, policy, utils
from kmip.core.messages import contents, messages
from kmip.services.server.engine import KmipEngine

logging.disable(logging.CRITICAL)


def raise_version(engine):
    """Takes KMIP 2.1 for 2.0 from now on."""
    version_of = contents.protocol_version_to_kmip_version
    contents.protocol_version_to_kmip_version = lambda version: (
        enums.KMIPVersion.KMIP_2_0 if (version.major, version.minor) == (2, 1) else version_of(version))
    engine._protocol_versions.insert(0, contents.ProtocolVersion(2, 1))


def answer(engine, data):
    """The reply to a message, as PyKMIP's own sessions give it."""
    version, first = enums.KMIPVersion.KMIP_1_2, contents.ProtocolVersion(1, 0)
    request = messages.RequestMessage()
    try:
        request.read(utils.BytearrayStream(data), kmip_version=version)
    except Exception:
        response = engine.build_error_response(first, enums.ResultReason.INVALID_MESSAGE, 'unreadable')
    else:
        own = request.request_header.protocol_version
        try:
            response, _, spoken = engine.process_request(request, ('kmipctl', None))
            version = contents.protocol_version_to_kmip_version(spoken)
        except exceptions.KmipError as error:
            response = engine.build_error_response(own, error.reason, str(error))
        except Exception:
            response = engine.build_error_response(own, enums.ResultReason.GENERAL_FAILURE, 'unexpected')
    written = utils.BytearrayStream()
    response.write(written, kmip_version=version)
    return written.buffer


def serve(engine, stream):
    """Answers the messages of a connection."""
    while len(head := stream.read(8)) == 8:
        stream.write(answer(engine, head + stream.read(struct.unpack('!I', head[4:])[0])))
        stream.flush()


def main():
    engine = KmipEngine(policies=policy.policies, database_path=sys.argv[1])
    if '--raised' in sys.argv[2:]:
        raise_version(engine)
    listener = socket.create_server(('127.0.0.1', 0))
    print(f'listening {listener.getsockname()[1]}', flush=True)
    while True:
        connection, _ = listener.accept()
        with connection, connection.makefile('rwb') as stream:
            try:
                serve(engine, stream)
            except OSError:
                pass


if __name__ == '__main__':
    main()
