#!/usr/bin/env python3
"""Makes a Python wheel of yamlfmt, and prints its name. The wheel contains the program as it is, and no Python code.

Usage: dist/wheel.py PROGRAM VERSION PLATFORM SOURCE FOLDER

PLATFORM is the end of the wheel's tag, for example manylinux_2_34_x86_64. SOURCE is a folder with README.md and LICENSE
of this repository. The wheel goes into FOLDER. All dates in it are SOURCE_DATE_EPOCH, and nothing is compressed, since
compressors differ. So one program gives one wheel, byte for byte.
"""
import base64
import hashlib
import os
import sys
import time
import zipfile

SUMMARY = 'Formatter and style checker for YAML 1.2.2, proved'


def read(path):
    with open(path, 'rb') as file:
        return file.read()


def metadata(version, readme):
    head = ('Metadata-Version: 2.1', 'Name: yamlfmt', 'Version: ' + version, 'Summary: ' + SUMMARY, 'License: MIT',
            'Classifier: Operating System :: POSIX :: Linux', 'Requires-Python: >=3.8', 'Description-Content-Type: text/markdown')
    return '\n'.join(head).encode() + b'\n\n' + readme


def wheel(platform):
    return ('Wheel-Version: 1.0\nGenerator: yamlfmt dist/wheel.py\nRoot-Is-Purelib: false\nTag: py3-none-%s\n' % platform).encode()


def record_line(name, data):
    digest = base64.urlsafe_b64encode(hashlib.sha256(data).digest()).rstrip(b'=').decode()
    return '%s,sha256=%s,%d\n' % (name, digest, len(data))


def entry(name, mode):
    """The head of a file of the archive: a regular file with this mode and the fixed date."""
    date = time.gmtime(max(int(os.environ['SOURCE_DATE_EPOCH']), 315532800))  # (a zip file knows no date before 1980)
    head = zipfile.ZipInfo(name, date[:6])
    head.create_system = 3
    head.external_attr = (0o100000 | mode) << 16
    return head


def main():
    if len(sys.argv) != 6:
        sys.exit(__doc__)
    program, version, platform, source, folder = sys.argv[1:]
    base = 'yamlfmt-' + version
    files = [
        (base + '.data/scripts/yamlfmt', 0o755, read(program)),
        (base + '.dist-info/LICENSE', 0o644, read(source + '/LICENSE')),
        (base + '.dist-info/METADATA', 0o644, metadata(version, read(source + '/README.md'))),
        (base + '.dist-info/WHEEL', 0o644, wheel(platform)),
    ]
    record = base + '.dist-info/RECORD'
    listed = ''.join(record_line(name, data) for name, _, data in files) + record + ',,\n'
    name = '%s-py3-none-%s.whl' % (base, platform)
    with zipfile.ZipFile(os.path.join(folder, name), 'w') as archive:
        for path, mode, data in (*files, (record, 0o644, listed.encode())):
            archive.writestr(entry(path, mode), data)
    print(name)


if __name__ == '__main__':
    main()
