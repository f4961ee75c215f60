#!/usr/bin/env python3
"""Writes what kubectl has to know of a `kcp serve`: a cache of what the server has, and a configuration that names the server.

    kubectl_cache.py DIR [--server URL]     URL: http://127.0.0.1:8080 if left out

A kubectl asks its server first which kinds it has (discovery), and `kcp` does not answer that. In the place of the answers it takes the files
of its cache. They are dated far ahead, since it asks again for what is some hours old. The command line that uses them is printed.
docs/KUBECTL.md says which commands work then.
"""
import argparse
import json
import os
import pathlib
import re

# The names of a kind, short ones among them, by the group's name; and whether `kubectl get all` shows it.
GROUPS = {
    "": [("configmaps", "configmap", "ConfigMap", "cm", False), ("pods", "pod", "Pod", "po", True)],
    "apps": [("deployments", "deployment", "Deployment", "deploy", True), ("replicasets", "replicaset", "ReplicaSet", "rs", True)],
}
VERBS = ["create", "delete", "get", "list", "patch", "update", "watch"]
VERBS_OF_A_STATUS = ["get", "update"]
VERSION = "v1"
# 2100-01-01: kubectl takes a file until some hours after its date.
DATE = 4_102_444_800


def group_version(group):
    """Returns a group with its version, as `apps/v1`."""
    return f"{group}/{VERSION}" if group else VERSION


def group_list():
    """Returns the list of the groups."""
    groups = []
    for group in GROUPS:
        version = {"groupVersion": group_version(group), "version": VERSION}
        groups.append({"name": group, "versions": [version], "preferredVersion": version})
    return {"kind": "APIGroupList", "apiVersion": "v1", "groups": groups}


def resource_list(group):
    """Returns the list of a group's resources."""
    resources = []
    for name, singular, kind, short, is_shown in GROUPS[group]:
        common = {"namespaced": True, "kind": kind}
        shown = {"categories": ["all"]} if is_shown else {}
        resources.append({"name": name, "singularName": singular, "verbs": VERBS, "shortNames": [short], **common, **shown})
        if is_shown:
            resources.append({"name": f"{name}/status", "singularName": "", "verbs": VERBS_OF_A_STATUS, **common})
    return {"kind": "APIResourceList", "apiVersion": "v1", "groupVersion": group_version(group), "resources": resources}


def configuration(server):
    """Returns a configuration whose only cluster is the server, which nobody has to be known to."""
    context = {"cluster": "kcp", "user": "nobody", "namespace": "default"}
    return {
        "apiVersion": "v1",
        "kind": "Config",
        "clusters": [{"name": "kcp", "cluster": {"server": server}}],
        "users": [{"name": "nobody", "user": {}}],
        "contexts": [{"name": "kcp", "context": context}],
        "current-context": "kcp",
    }


def folder_of(server):
    """Returns the name of the folder that kubectl has for a server."""
    return re.sub(r"[^(\w/.)]", "_", re.sub(r"^https?://", "", server), flags=re.ASCII)


def files_of(server):
    """Returns the files, with what is in each."""
    folder = pathlib.Path("discovery", folder_of(server))
    lists = {folder / group_version(group) / "serverresources.json": resource_list(group) for group in GROUPS}
    return {pathlib.Path("config"): configuration(server), folder / "servergroups.json": group_list(), **lists}


def write(room, server):
    """Writes the files into a folder."""
    for name, value in files_of(server).items():
        file = room / name
        file.parent.mkdir(parents=True, exist_ok=True)
        file.write_text(json.dumps(value, indent=1) + "\n", encoding="utf-8")
        os.utime(file, (DATE, DATE))


def main():
    parser = argparse.ArgumentParser(description=__doc__.splitlines()[0])
    parser.add_argument("room", metavar="DIR", type=pathlib.Path)
    parser.add_argument("--server", default="http://127.0.0.1:8080", metavar="URL")
    asked = parser.parse_args()
    write(asked.room, asked.server)
    print(f"kubectl --kubeconfig {asked.room}/config --cache-dir {asked.room}")


if __name__ == "__main__":
    main()
