#!/usr/bin/env python3
"""Makes the extension for VS Code as one file, which `code --install-extension FILE` installs without a network. A .vsix is a zip of the extension with
a manifest. What npm fetched into editors/vscode/node_modules goes in too; where it is not there, the extension colours programs and has the problem
matchers, and its server is not started. The same files give the same bytes. usage: packaging/vsix.py FILE"""
import json
import sys
import zipfile
from pathlib import Path
from xml.sax.saxutils import quoteattr

TOP = Path(__file__).resolve().parent.parent
EXTENSION = TOP / "editors/vscode"
# The earliest time that a zip can name.
TIME = (1980, 1, 1, 0, 0, 0)
TYPES = """<?xml version="1.0" encoding="utf-8"?>
<Types xmlns="http://schemas.openxmlformats.org/package/2006/content-types">
{rows}
</Types>
"""
MANIFEST = """<?xml version="1.0" encoding="utf-8"?>
<PackageManifest Version="2.0.0" xmlns="http://schemas.microsoft.com/developer/vsx-schema/2011">
<Metadata>
<Identity Language="en-US" Id={name} Version={version} Publisher={publisher}/>
<DisplayName>{title}</DisplayName>
<Description xml:space="preserve">{description}</Description>
<Categories>{categories}</Categories>
<Properties><Property Id="Microsoft.VisualStudio.Code.Engine" Value={engine}/></Properties>
</Metadata>
<Installation><InstallationTarget Id="Microsoft.VisualStudio.Code"/></Installation>
<Dependencies/>
<Assets><Asset Type="Microsoft.VisualStudio.Code.Manifest" Path="extension/package.json" Addressable="true"/></Assets>
</PackageManifest>
"""


def manifest() -> str:
    """What VS Code reads of the extension before it unpacks it."""
    package = json.loads((EXTENSION / "package.json").read_text())
    quoted = {name: quoteattr(package[name]) for name in ("name", "version", "publisher")}
    words = {"title": package["displayName"], "description": package["description"], "categories": ",".join(package["categories"])}
    return MANIFEST.format(**quoted, **words, engine=quoteattr(package["engines"]["vscode"]))


def types(names: list[str]) -> str:
    """The media types that the form asks for, by the endings of names."""
    endings = sorted({Path(name).suffix for name in names} - {""})
    return TYPES.format(rows="\n".join(f'<Default Extension="{ending}" ContentType="application/octet-stream"/>' for ending in endings))


def main() -> None:
    files = {f"extension/{path.relative_to(EXTENSION).as_posix()}": path.read_bytes() for path in sorted(EXTENSION.rglob("*")) if path.is_file()}
    files |= {f"extension/{name}": (TOP / name).read_bytes() for name in ("LICENSE-MIT", "LICENSE-APACHE")}
    made = {"extension.vsixmanifest": manifest().encode(), **files}
    made = {"[Content_Types].xml": types(list(made)).encode(), **made}
    with zipfile.ZipFile(sys.argv[1], "w") as archive:
        for name, data in made.items():
            archive.writestr(zipfile.ZipInfo(name, TIME), data, zipfile.ZIP_DEFLATED)


main()
