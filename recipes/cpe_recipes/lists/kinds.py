"""The kind of a package, by the type of its package URL, or by the word of Syft or Trivy.

Kinds are types of package URLs (deb, rpm, apk, pypi, npm, golang, maven and so on). A type that doesn't decide how
versions are ordered, such as `generic`, is no kind.
"""
from __future__ import annotations

import re

_TYPE = re.compile(r"pkg:/*([A-Za-z][A-Za-z0-9.+-]*)/", re.IGNORECASE)
_OPEN = {"generic", "github", "bitbucket", "gitlab", "oci", "docker", "huggingface", "mlflow"}

# Syft's types of packages, if they aren't those of package URLs.
_SYFT = {
    "python": "pypi",
    "go-module": "golang",
    "java-archive": "maven",
    "jenkins-plugin": "maven",
    "rust-crate": "cargo",
    "php-composer": "composer",
    "dart-pub": "pub",
    "dotnet": "nuget",
    "cocoapods": "cocoapods",
    "pod": "cocoapods",
    "R-package": "cran",
    "erlang-otp": "otp",
    "portage": "ebuild",
}
# Trivy's types of results, if they aren't those of package URLs.
_TRIVY = {
    "alpine": "apk",
    "wolfi": "apk",
    "chainguard": "apk",
    "debian": "deb",
    "ubuntu": "deb",
    "alma": "rpm",
    "amazon": "rpm",
    "azurelinux": "rpm",
    "cbl-mariner": "rpm",
    "centos": "rpm",
    "fedora": "rpm",
    "opensuse": "rpm",
    "opensuse-leap": "rpm",
    "opensuse-tumbleweed": "rpm",
    "oracle": "rpm",
    "photon": "rpm",
    "redhat": "rpm",
    "rocky": "rpm",
    "sles": "rpm",
    "slem": "rpm",
    "node-pkg": "npm",
    "yarn": "npm",
    "pnpm": "npm",
    "bun": "npm",
    "python-pkg": "pypi",
    "pip": "pypi",
    "pipenv": "pypi",
    "poetry": "pypi",
    "uv": "pypi",
    "pylock": "pypi",
    "conda-pkg": "conda",
    "conda-environment": "conda",
    "gobinary": "golang",
    "gomod": "golang",
    "jar": "maven",
    "pom": "maven",
    "gradle": "maven",
    "sbt": "maven",
    "gemspec": "gem",
    "bundler": "gem",
    "rustbinary": "cargo",
    "composer-vendor": "composer",
    "dotnet-core": "nuget",
    "packages-props": "nuget",
}
# Types of packages of both that are types of package URLs.
_SAME = {
    "apk",
    "deb",
    "rpm",
    "alpm",
    "npm",
    "gem",
    "cargo",
    "composer",
    "nuget",
    "conda",
    "conan",
    "hex",
    "swift",
    "pub",
    "hackage",
    "cocoapods",
}


def of_purl(purl: str) -> str:
    """The type of a package URL; empty if it has none, or one that is no kind."""
    found = _TYPE.match(purl)
    kind = found[1].lower() if found else ""
    return "" if kind in _OPEN else kind


def of_tool(word: object) -> str:
    """The kind that a word of Syft or Trivy means; empty if the word isn't known."""
    if not isinstance(word, str):
        return ""
    return word if word in _SAME else _SYFT.get(word) or _TRIVY.get(word) or ""
