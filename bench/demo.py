"""The demo's start and change for a number of ports, and how runs are timed and counted, for the scripts in the folders here."""
import os, re, shutil, subprocess

SEED = 7


def start_of(ports):
    """That many ports, five VLANs for eight ports, and a member for each port."""
    vlans = 5 * ports // 8
    port = lambda i: {"admin_status": "up", "lanes": ",".join(str(4 * i + k) for k in range(4)), "speed": "100000"}
    return {
        "PORT": {f"Ethernet{4 * i}": port(i) for i in range(ports)},
        "VLAN": {f"Vlan{100 + j}": {"vlanid": str(100 + j)} for j in range(vlans)},
        "VLAN_MEMBER": {
            f"Vlan{100 + (7 * i + SEED) % vlans}|Ethernet{4 * i}": {"tagging_mode": "tagged"} for i in range(ports)
        },
    }


def change_of(ports):
    """One port in eight gets other lanes and one another speed, four go down, and half as many VLANs as ports a description."""
    put = lambda i, field, value: {"op": "replace", "path": f"/PORT/Ethernet{4 * i}/{field}", "value": value}
    operations = []
    for i in range(ports):
        if i % 8 == 0:
            operations.append(put(i, "lanes", f"{4 * i},{4 * i + 1}"))
        elif i % 8 == 1:
            operations.append(put(i, "speed", "40000"))
        elif i % 8 <= 5:
            operations.append(put(i, "admin_status", "down"))
    for j in range(ports // 2):
        operations.append({"op": "add", "path": f"/VLAN/Vlan{100 + j}/description", "value": f"vlan {j}"})
    return operations


def speeds_of(ports):
    """All ports get another speed, which requires each to be down before: so each of them goes down, changes, and comes up."""
    return [{"op": "replace", "path": f"/PORT/Ethernet{4 * i}/speed", "value": "40000"} for i in range(ports)]


def least_time(words, folder, said, runs):
    """The least processor time (user and system) of some runs, in milliseconds; each prints what is said, and ends with 0."""
    times = []
    for _ in range(runs):
        started = subprocess.Popen(words, cwd=folder, stdout=subprocess.PIPE, stderr=subprocess.DEVNULL)
        told = started.stdout.read()
        _, status, used = os.wait4(started.pid, 0)
        started.returncode = os.waitstatus_to_exitcode(status)
        assert (started.returncode, told) == (0, said), (words, started.returncode, told)
        times.append(used.ru_utime + used.ru_stime)
    return 1000 * min(times)


def instructions(words, folder):
    """The millions of instructions of one run by callgrind, or nothing where valgrind isn't there."""
    if not shutil.which("valgrind"):
        return ""
    counted = ["valgrind", "--tool=callgrind", "--callgrind-out-file=/dev/null", *words]
    told = subprocess.run(counted, cwd=folder, capture_output=True, text=True).stderr
    return f"{int(re.search(r'Collected : ([0-9]+)', told)[1]) / 1e6:.1f}"
