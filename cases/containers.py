"""Checks of the recipes for Kubernetes and Docker, which are read and not run: no engine is wanted here."""

import json
import os
import re
import subprocess

from balanced import RECIPES, own_folder
from checks import Skipped, needed
from packets import HOST
from running import end_with_parent, free_ports, free_status_ports, wait_until

MANIFEST, DOCKERFILE = RECIPES / "kubernetes" / "lg.yaml", RECIPES / "docker" / "Dockerfile"
RULES = "{extends: default, rules: {line-length: {max: 120}, document-start: disable}}"
# The user without rights as which the container runs.
USER = 65_532
INSTRUCTIONS = {"FROM", "COPY", "RUN", "USER", "ENTRYPOINT", "CMD"}


# ---- The manifest


def documents():
    """The documents of the manifest by their kinds. Without PyYAML the check that needs them is skipped."""
    try:
        import yaml
    except ImportError:
        raise Skipped("there is no PyYAML (python3-yaml)") from None
    found = list(yaml.safe_load_all(MANIFEST.read_text(encoding="utf-8")))
    for it in found:
        if not all(it.get(key) for key in ("apiVersion", "kind")) or not it.get("metadata", {}).get("name"):
            raise RuntimeError(f"a document has no version, kind or name: {it}")
    by_kind = {it["kind"]: it for it in found}
    if len(by_kind) != len(found):
        raise RuntimeError(f"the kinds are {[it['kind'] for it in found]}")
    return by_kind


def manifest_pleases_yamllint(_):
    """yamllint finds nothing in the manifest."""
    ran = subprocess.run([needed("yamllint"), "-s", "-d", RULES, MANIFEST], capture_output=True, text=True, check=False)
    return f"{ran.stdout}{ran.stderr}" if ran.returncode else None


def sidecar_of(pod):
    """The container of the node."""
    return next(it for it in pod["containers"] if it["name"] == "lg")


def manifest_is_whole(_):
    """What the parts of the manifest say of each other is so: names, labels, ports, volumes."""
    parts = documents()
    service, config, workload = (parts[it] for it in ("Service", "ConfigMap", "StatefulSet"))
    template, pod = workload["spec"]["template"], workload["spec"]["template"]["spec"]
    lg, labels = sidecar_of(pod), template["metadata"]["labels"]
    port = service["spec"]["ports"][0]
    ports = {it["name"]: it for it in lg["ports"]}
    volumes = {it["name"]: it for it in pod["volumes"]}
    paths = {it["mountPath"]: volumes[it["name"]]["configMap"]["name"] for it in lg["volumeMounts"]}
    config_path = lg["args"][lg["args"].index("--config") + 1]
    asked = [lg["lifecycle"]["preStop"], lg["readinessProbe"], lg["livenessProbe"]]
    called = {tuple(it["exec"]["command"]) for it in asked}
    path = lg["command"][0]
    got = {
        "the service has no address of its own": service["spec"]["clusterIP"] == "None",
        "it is the one of the set": workload["spec"]["serviceName"] == service["metadata"]["name"],
        "it finds the pods": service["spec"]["selector"].items() <= labels.items(),
        "the set finds the pods": workload["spec"]["selector"]["matchLabels"] == labels,
        "its port is the node's": ports[port["targetPort"]]["containerPort"] == port["port"],
        "both are of UDP": (port["protocol"], ports[port["targetPort"]]["protocol"]) == ("UDP", "UDP"),
        "the file is in the volume": paths.get(os.path.dirname(config_path)) == config["metadata"]["name"],
        "the volume has the file": os.path.basename(config_path) in config["data"],
        "the node is asked by its program": called == {(path, "leave"), (path, "status")},
        "its program is where the image has it": path == json.loads(instructions()["ENTRYPOINT"][-1])[0],
        "its user is that of the image": f"{pod['securityContext']['runAsUser']}:" in instructions()["USER"][-1],
    }
    wrong = [what for what, is_so in got.items() if not is_so]
    return f"not so: {wrong}" if wrong else None


def manifest_gives_no_rights(_):
    """No container has a right that it doesn't need, and the node has little memory."""
    pod = documents()["StatefulSet"]["spec"]["template"]["spec"]
    context, lg = pod["securityContext"], sidecar_of(pod)
    got = [context["runAsNonRoot"], context["seccompProfile"]["type"], lg["securityContext"]["readOnlyRootFilesystem"],
           lg["resources"]["limits"], "cpu" in lg["resources"]["requests"]]
    if got != [True, "RuntimeDefault", True, {"memory": "64Mi"}, True]:
        return f"the pod and the node have {got}"
    for it in pod["containers"]:
        own = it["securityContext"]
        if own["allowPrivilegeEscalation"] or own["capabilities"] != {"drop": ["ALL"]} or own.get("privileged"):
            return f"{it['name']} may do {own}"
    return None


def manifest_configures_a_node(program):
    """The program takes the file of the ConfigMap with the words of the container, and means by it what the manifest
    needs: its seed is the service, and an interval is shorter than the time that a pod has for its end."""
    parts = documents()
    pod = parts["StatefulSet"]["spec"]["template"]["spec"]
    with own_folder() as folder:
        path = f"{folder}/lg.toml"
        with open(path, "w", encoding="utf-8") as it:
            it.write(parts["ConfigMap"]["data"]["lg.toml"])
        given = {"node": "check", "/etc/lg/lg.toml": path, "$(POD_NAME)": "web-0"}
        words = [given.get(it, it) for it in sidecar_of(pod)["args"]]
        ran = subprocess.run([program, *words], capture_output=True, text=True, timeout=60, check=False)
    lines = (line.removesuffix(" (default)").partition(" = ") for line in ran.stdout.splitlines())
    means = {key: value for key, _, value in lines}
    wanted = {"name": "web-0", "address": "auto", "port": "7946", "wire": "3", "group": "web", "leave": "on",
              "seeds": f"{parts['Service']['metadata']['name']}:7946", "status": f"{HOST}:8946"}
    got = {key: means.get(key) for key in wanted}
    if ran.returncode or ran.stderr or got != wanted:
        return f"it means {got}, wanted {wanted}: {ran.stderr}"
    has_time = pod["terminationGracePeriodSeconds"] * 1000 > 2 * int(means["interval_ms"])
    return None if has_time else f"an interval of {means['interval_ms']} ms is too long for the end of a pod"


# ---- The image


def instructions():
    """What stands behind each instruction of the Dockerfile, in order, by its name."""
    found = {}
    for line in DOCKERFILE.read_text(encoding="utf-8").splitlines():
        if line.strip() and not line.startswith("#"):
            name, _, rest = line.partition(" ")
            found.setdefault(name, []).append(rest)
    return found


def dockerfile_is_whole(_):
    """The Dockerfile has only instructions that are known. Its last stage begins with nothing, and takes the files that
    the stage before has laid out."""
    found = instructions()
    if set(found) != INSTRUCTIONS:
        return f"the instructions are {sorted(found)}"
    stages = [re.fullmatch(r"(\S+)(?: AS (\w+))?", it) for it in found["FROM"]]
    copied, taken = found["COPY"]
    lost = [it for it in copied.split()[:-1] if it != "lg" and not (DOCKERFILE.parent / it).is_file()]
    called = found["RUN"][0].split()
    got = [stages[-1][1], lost, called[:2], taken, json.loads(found["ENTRYPOINT"][0]), found["USER"]]
    wanted = ["scratch", [], ["/lay-out", "/lg"], f"--from={stages[0][2]} {called[2]} /", ["/usr/bin/lg"],
              [f"{USER}:{USER}"]]
    return None if got == wanted else f"got {got}, wanted {wanted}"


def in_image(folder):
    """What puts a process among the files of the image alone, as the user of the image."""
    def begin():
        end_with_parent()
        os.chroot(folder)
        os.chdir("/")
        os.setgroups([])
        os.setgid(USER)
        os.setuid(USER)
        # A change of the user ends this.
        end_with_parent()

    return {"preexec_fn": begin, "stdin": subprocess.DEVNULL, "stdout": subprocess.PIPE, "stderr": subprocess.STDOUT}


def fault_of_image(folder):
    """What is wrong with a node among the files of an image: it finds its address by a host, answers the probe of the
    manifest, and leaves by the call of the manifest."""
    [port], [status] = free_ports(1), free_status_ports(1)
    with open(f"{folder}/etc/hosts", "w", encoding="ascii") as it:
        it.write("127.0.0.1 web-lg\n")
    words = ["/usr/bin/lg", "node", "--name", "b", "--address", "auto", "--seed", f"web-lg:{port}", "--port", str(port),
             "--wire", "3", "--status", f"{HOST}:{status}", "--interval-ms", "200", "--timeout-ms", "100"]
    node = subprocess.Popen(words, **in_image(folder))

    def called(command):
        words = ["/usr/bin/lg", command, "--at", f"{HOST}:{status}"]
        return subprocess.run(words, timeout=60, check=False, **in_image(folder)).returncode

    try:
        is_well = wait_until(lambda: node.poll() is not None or called("status") == 0, 20) is not None
        left = called("leave") if is_well and node.poll() is None else None
    finally:
        if node.poll() is None and not left == 0:
            node.kill()
        told = node.communicate(timeout=30)[0].decode(errors="replace")
    is_found = f"lg: the address auto is {HOST}:{port}\n" in told
    got = is_well, left, node.returncode, is_found
    return None if got == (True, 0, 0, True) else f"got {got}: {told[:600]}"


def image_has_what_the_program_links(program):
    """The files that the Dockerfile has laid out are enough for a node, which resolves a host and is told to leave. It
    wants root, who may put it among these files alone."""
    needed("ldd")
    if os.geteuid():
        raise Skipped("there is no root, who may call chroot")
    with own_folder() as folder:
        subprocess.run([DOCKERFILE.parent / "lay-out", program, f"{folder}/image"], check=True, timeout=60)
        return fault_of_image(f"{folder}/image")
