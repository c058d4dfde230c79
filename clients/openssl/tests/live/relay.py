#!/usr/bin/python3
"""Passes bytes on between clients and a server, over plain TCP, and breaks off when it is told to.

    relay.py SERVER-PORT

It writes `ready PORT` when it listens, and `opened` for each connection. A signal USR1 ends the connections that are open;
after USR2 the next bytes of a client are not passed on, and its connection ends. TERM ends it, with all connections.
"""
import os
import signal
import socket
import sys
import threading

server_port = int(sys.argv[1])
lock = threading.Lock()
pairs = []
cut_next = False


def end(pair):
    for wire in pair:
        try:
            wire.shutdown(socket.SHUT_RDWR)
        except OSError:
            pass


def end_all(*_):
    with lock:
        ended = list(pairs)
        pairs.clear()
    for pair in ended:
        end(pair)


def cut(*_):
    global cut_next
    cut_next = True


def carry(source, target, from_client, pair):
    global cut_next
    try:
        while piece := source.recv(65536):
            if from_client and cut_next:
                cut_next = False
                break
            target.sendall(piece)
    except OSError:
        pass
    end(pair)


def main():
    signal.signal(signal.SIGUSR2, cut)
    signal.signal(signal.SIGUSR1, end_all)
    with socket.create_server(('127.0.0.1', 0)) as listener:
        print('ready', listener.getsockname()[1], flush=True)
        while True:
            client, _ = listener.accept()
            print('opened', flush=True)
            server = socket.create_connection(('127.0.0.1', server_port))
            pair = (client, server)
            with lock:
                pairs.append(pair)
            threading.Thread(target=carry, args=(client, server, True, pair), daemon=True).start()
            threading.Thread(target=carry, args=(server, client, False, pair), daemon=True).start()


try:
    main()
except KeyboardInterrupt:
    os._exit(130)
