"""What the checks use beside the program and Python, with the Debian packages that have it. Run by itself, it tells which packages are
missing, with a line that installs them."""

import pathlib
import shutil
import sys

# A command, or a file.
PACKAGES = {
    "cc": "gcc", "/usr/include/dlfcn.h": "libc6-dev", "node": "nodejs", "tmux": "tmux", "vim": "vim", "emacs": "emacs-nox", "git": "git",
    "mandoc": "mandoc", "man": "man-db", "dpkg-deb": "dpkg", "strip": "binutils", "lintian": "lintian", "bash": "bash", "zsh": "zsh",
    "fish": "fish", "/usr/share/bash-completion/bash_completion": "bash-completion", "gs": "ghostscript", "chromium": "chromium",
    "pdftotext": "poppler-utils", "pdftoppm": "poppler-utils", "pdfinfo": "poppler-utils", "fc-list": "fontconfig",
}


def has(tool):
    return bool(pathlib.Path(tool).exists() if tool.startswith("/") else shutil.which(tool))


def lacks(check, what, *tools):
    """Whether one of these tools is missing; then it tells what the check skips."""
    missing = sorted({PACKAGES[tool] for tool in tools if not has(tool)})
    if missing:
        print(f"{check}: skipped: {what}, since the Debian package {' or '.join(missing)} isn't installed")
    return bool(missing)


def main():
    missing = " ".join(sorted({package for tool, package in PACKAGES.items() if not has(tool)}))
    if missing:
        print(f"check: these Debian packages are missing, and what needs them is skipped; so install them:\nsudo apt-get install {missing}")


if __name__ == "__main__":
    sys.exit(main())
