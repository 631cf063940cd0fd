"""Builds the package by setuptools in a copy of this folder, which may belong to another user, as an installed one."""

import os
import pathlib
import shutil
import tempfile

from setuptools import build_meta

HERE = pathlib.Path(__file__).resolve().parent


def _elsewhere(hook, folder, *words):
    """What a hook of setuptools makes into the folder, by way of the copy."""
    folder, before = os.path.abspath(folder), os.getcwd()
    with tempfile.TemporaryDirectory() as work:
        copy = pathlib.Path(shutil.copytree(HERE, os.path.join(work, "libzk"),
                                            ignore=shutil.ignore_patterns("build", "*.egg-info", "__pycache__")))
        for path in (copy, *copy.rglob("*")):
            path.chmod(path.stat().st_mode | 0o200)
        os.chdir(copy)
        try:
            return hook(folder, *words)
        finally:
            os.chdir(before)


def get_requires_for_build_wheel(config_settings=None):
    return []


get_requires_for_build_sdist = get_requires_for_build_wheel


def prepare_metadata_for_build_wheel(folder, config_settings=None):
    return _elsewhere(build_meta.prepare_metadata_for_build_wheel, folder, config_settings)


def build_wheel(folder, config_settings=None, metadata_directory=None):
    return _elsewhere(build_meta.build_wheel, folder, config_settings)


def build_sdist(folder, config_settings=None):
    return _elsewhere(build_meta.build_sdist, folder, config_settings)
