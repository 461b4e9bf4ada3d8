"""Connects with PyMongo, sends a ping and disconnects. Words: HOST PORT MECHANISM, or --version."""
import os
import sys

import pymongo
from pymongo.errors import OperationFailure, PyMongoError

if sys.argv[1:] == ['--version']:
    print(pymongo.version)
    sys.exit(0)
host, port, mechanism = sys.argv[1:]
try:
    with pymongo.MongoClient(host, int(port), username=os.environ['INTEROP_USER'], password=os.environ['INTEROP_PASSWORD'],
                             authSource='admin', authMechanism=mechanism, serverSelectionTimeoutMS=10000) as client:
        client.admin.command('ping')
except OperationFailure as refused:
    print(refused)
    sys.exit(1 if refused.code == 18 else 2)
except PyMongoError as fault:
    print(fault)
    sys.exit(2)
