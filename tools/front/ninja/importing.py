"""`lenthuvi import`: notes how a build folder is built."""
from __future__ import annotations

import os

from ..digests import write_whole
from ..faults import Unreadable
from ..options import Unwanted, Words, did_you_mean
from ..voice import plural, quoted
from .project import Project
from .settings import KIND, Settings, can_mount, root_of


def import_(words: Words) -> int:
    """Notes how a build folder is built, and writes its list."""
    if len(words.rest) < 2:
        raise Unwanted("import needs the kind of build and its folder: lenthuvi import ninja FOLDER")
    kind, folder = words.rest
    if kind != KIND:
        raise Unwanted(f"import {kind}: there is only import {KIND}{did_you_mean(kind, [KIND])}; tools/bazel-to-list makes a list of what Bazel built, "
                       "and tools/from-compile-commands one of compile_commands.json")
    settings = settings_of(words, os.path.realpath(folder))
    settings.write()
    os.chdir(settings.root)
    project = Project(settings)
    listing = project.listing(os.path.join(settings.own, "list.json"))
    write_whole(os.path.join(settings.own, ".gitignore"), "*\n")
    print(f"{plural(len(listing.actions), 'step')} of {folder}, seen from {settings.root}"
          + ("; each sees its room at that path" if settings.mounts else "; paths in their words become the room's"))
    places = [it for it in listing.actions if it.in_place]
    for it in places[:10]:
        print(f"  {it.name} runs in place, as ninja runs it: {it.in_place}")
    if len(places) > 10:
        print(f"  .. and {plural(len(places) - 10, 'more step')}")
    print(f"next: lenthuvi build {quoted([folder])}")
    return 0


def settings_of(words: Words, folder: str) -> Settings:
    """Returns the settings that the words ask for."""
    if not os.path.isfile(os.path.join(folder, "build.ninja")):
        raise Unreadable(f"{folder}/build.ninja isn't there; cmake -G Ninja and meson setup write one")
    root = os.path.realpath(words.last("--root")) if words.has("--root") else root_of(folder)
    if not (folder + "/").startswith(root.rstrip("/") + "/"):
        raise Unwanted(f"--root={words.last('--root')}: {folder} isn't below it")
    if root == "/":
        raise Unwanted(f"{folder} and its sources have only / above both; put them below one folder, or name it by --root=FOLDER")
    found = Settings(folder, root, words.all("--target"), also=words.all("--also"), in_place=words.all("--in-place"))
    for name in words.all("--env"):
        if name not in os.environ:
            raise Unwanted(f"--env={name}: there is no such variable now")
        found.env[name] = os.environ[name]
    when = words.last("--mount", "auto")
    found.mounts = when != "never" and can_mount()
    if when == "always" and not found.mounts:
        raise Unwanted("--mount=always: this system doesn't let a command mount a folder in a namespace of its own (unshare, mount)")
    return found
