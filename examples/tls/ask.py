#!/usr/bin/env python3
"""Asks a served ifdb behind TLS one request, and writes the reply's rows.

    examples/tls/ask.py PORT AUTHORITY CERTIFICATE USER REQUEST

The key is that of the variable IFDB_KEY. AUTHORITY is the file by which the server's side is known, CERTIFICATE that of this client
and its key; `-` if it has none. Ends with 1, and says why, where there is no connection, or a refusal.
"""

from __future__ import annotations

import os
import pathlib
import ssl
import sys

sys.path.append(str(pathlib.Path(__file__).resolve().parents[2] / "clients/python"))

import ifdb  # noqa: E402


def main(port: str, authority: str, certificate: str, user: str, request: str) -> int:
    context = ssl.create_default_context(cafile=authority)
    if certificate != "-":
        context.load_cert_chain(certificate)
    try:
        with ifdb.connect(int(port), user, os.environ["IFDB_KEY"], timeout=10, ssl=context) as connection:
            cursor = connection.cursor().execute(request)
            for row in cursor.fetchall() if cursor.description else []:
                print(*row, sep="\t")
    except ifdb.Error as error:
        print(error, file=sys.stderr)
        return 1
    return 0


if __name__ == "__main__":
    sys.exit(main(*sys.argv[1:]))
