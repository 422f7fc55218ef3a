"""Checks of the container names that are stored in a recording."""
from __future__ import annotations

import json
import os

from record import machine_folder as folder
from harness import must, must_be
from record.runs import Run

CONTAINER, SANDBOX, LATE = "4fd3" * 16, "5a" * 32, "77" * 32
UID = "0a1b2c3d-0000-1111-2222-333344445555"
POD = "/kubepods.slice/kubepods-pod" + UID.replace("-", "_") + ".slice"
LABELS = {
    "io.kubernetes.pod.name": "web-7", "io.kubernetes.pod.namespace": "prod",
    "io.kubernetes.pod.uid": UID,
}
PS = {"containers": [{"id": CONTAINER, "metadata": {"name": "nginx"}, "labels": LABELS}]}
PS_LATER = {"containers": [{"id": LATE, "metadata": {"name": "late"}}]}
PODS = {"items": [{"id": SANDBOX, "metadata": {"name": "web-7", "namespace": "prod", "uid": UID}}]}
# A stub of crictl: it logs its arguments. The second `crictl ps`, which is the third call, lists a
# container that the first one doesn't list.
CRICTL = f"""#!/bin/sh
echo "$@" >>"$(readlink -f "$0").words"
case "$1 $(grep -c . "$(readlink -f "$0").words")" in
"ps 3") printf '%s\\n' '{json.dumps(PS_LATER)}' ;;
"ps "*) printf '%s\\n' '{json.dumps(PS)}' ;;
"pods "*) printf '%s\\n' '{json.dumps(PODS)}' ;;
esac
"""
WANTED = [
    f"{UID} prod/web-7", f"{CONTAINER} prod/web-7/nginx", f"{SANDBOX} prod/web-7/sandbox",
    f"{LATE} late",
]


def make_machine(top: str, group: str, command: str, script: str) -> None:
    """Makes a machine with this group. Installs a stub under the name of a command that lists
    containers.
    """
    folder.make_machine(top)
    if group:
        folder.write(f"{top}/cgroup{group}/cgroup.threads", "")
    folder.write(f"{top}.bin/{command}", script)
    os.chmod(f"{top}.bin/{command}", 0o755)
    os.symlink(f"{top}.bin/{command}", f"{top}/{command}")


def asked(top: str, command: str) -> list[str]:
    """Returns the arguments of each call of the stub."""
    name = f"{top}.bin/{command}.words"
    if not os.path.exists(name):
        return []
    with open(name, encoding="ascii") as file:
        return file.read().splitlines()


def check_names_of_pods_and_their_containers(top: str) -> None:
    make_machine(top, f"{POD}/cri-containerd-{CONTAINER}.scope", "crictl", CRICTL)
    run = Run(top, "--seconds", "0.3").ended(0)
    must_be("the names", run.file("containers").decode().splitlines(), sorted(WANTED))
    must_be("crictl is asked before and after", [it.split()[0] for it in asked(top, "crictl")],
            ["ps", "pods"] * 2)


def check_nothing_is_asked_without_containers(top: str) -> None:
    make_machine(top, "", "crictl", CRICTL)
    run = Run(top, "--seconds", "0.3").ended(0)
    must("containers" not in os.listdir(run.out), "there are no names")
    must_be("crictl isn't asked", asked(top, "crictl"), [])


def check_names_that_are_not_wanted(top: str) -> None:
    make_machine(top, f"/docker/{CONTAINER}", "docker",
                 "#!/bin/sh\necho >>\"$(readlink -f \"$0\").words\"\n")
    run = Run(top, "--seconds", "0.3", "--no-containers").ended(0)
    must("containers" not in os.listdir(run.out), "there are no names")
    must_be("docker isn't asked", asked(top, "docker"), [])


def check_a_command_that_fails(top: str) -> None:
    make_machine(top, f"/machine.slice/libpod-{CONTAINER}.scope", "podman",
                 "#!/bin/sh\necho nonsense\nexit 3\n")
    run = Run(top, "--seconds", "0.3").ended(0).says("podman doesn't say the names of containers")
    must("containers" not in os.listdir(run.out), "there are no names")


def check_the_time_zone(top: str) -> None:
    folder.make_machine(top)
    run = Run(top, "--seconds", "0.3", prefix=("env", "TZ=XYZ-05:45")).ended(0)
    must_be("the zone", run.values("zone"), ["+05:45"])
