"""Builds the wheel of this package with the standard library alone (PEP 517), so that `pip install ./python` needs no
network.

The shared object goes along where tools/build-library.sh has built it.
"""
import base64
import hashlib
import os
import re
import tarfile
import zipfile

HERE = os.path.dirname(os.path.dirname(os.path.abspath(__file__)))
PACKAGE = 'cluster_growth'
SHARED = os.path.join(os.path.dirname(HERE), 'target', 'lib', 'libfusion_blossom.so')


def about(field):
    """A field of pyproject.toml."""
    with open(os.path.join(HERE, 'pyproject.toml'), encoding='utf-8') as f:
        return re.search(rf'(?m)^{field} = "([^"]*)"', f.read())[1]


def metadata():
    return (
        f"Metadata-Version: 2.1\nName: {about('name')}\nVersion: {about('version')}\nSummary: {about('description')}\n"
        f"Requires-Python: {about('requires-python')}\n"
    )


def files():
    """What the package has, as (name in the wheel, bytes)."""
    folder = os.path.join(HERE, PACKAGE)
    for name in sorted(os.listdir(folder)):
        if name.endswith('.py') or name == 'py.typed':
            with open(os.path.join(folder, name), 'rb') as f:
                yield f'{PACKAGE}/{name}', f.read()
    if os.path.exists(SHARED):
        with open(SHARED, 'rb') as f:
            yield f'{PACKAGE}/{os.path.basename(SHARED)}', f.read()


def write(folder, entries, tag):
    """A wheel with these entries."""
    stem = f"{PACKAGE}-{about('version')}"
    entries = list(entries) + [
        (f'{stem}.dist-info/METADATA', metadata().encode()),
        (
            f'{stem}.dist-info/WHEEL',
            f'Wheel-Version: 1.0\nGenerator: {__name__}\nRoot-Is-Purelib: true\nTag: {tag}\n'.encode(),
        ),
    ]
    record = ''
    for name, data in entries:
        digest = base64.urlsafe_b64encode(hashlib.sha256(data).digest()).rstrip(b'=').decode()
        record += f'{name},sha256={digest},{len(data)}\n'
    entries.append((f'{stem}.dist-info/RECORD', (record + f'{stem}.dist-info/RECORD,,\n').encode()))
    wheel = f'{stem}-{tag}.whl'
    with zipfile.ZipFile(os.path.join(folder, wheel), 'w', zipfile.ZIP_DEFLATED) as out:
        for name, data in entries:
            out.writestr(name, data)
    return wheel


def build_wheel(wheel_directory, config_settings=None, metadata_directory=None):
    return write(wheel_directory, files(), 'py3-none-linux_x86_64' if os.path.exists(SHARED) else 'py3-none-any')


def build_editable(wheel_directory, config_settings=None, metadata_directory=None):
    return write(wheel_directory, [(f'{PACKAGE}.pth', HERE.encode() + b'\n')], 'py3-none-any')


def build_sdist(sdist_directory, config_settings=None):
    stem = f"{PACKAGE}-{about('version')}"
    with tarfile.open(os.path.join(sdist_directory, stem + '.tar.gz'), 'w:gz') as out:
        for name in ('pyproject.toml', 'build_backend', PACKAGE):
            out.add(os.path.join(HERE, name), f'{stem}/{name}', filter=lambda i: None if '__pycache__' in i.name else i)
    return stem + '.tar.gz'
