"""Folders with a big flat configuration: access lists on all ports, rules over the lists, and a patch on them."""
import json, pathlib, shutil

LISTS = 4
KINDS = ["field", "add", "remove", "lanes"]


def rule_key(number):
    return f"T{number % LISTS}|R{number:06d}"


def configuration(ports, rules):
    """Ports, access lists that each have all of them, and rules dealt out to the lists."""
    names = [f"Ethernet{4 * i}" for i in range(ports)]
    port = lambda i: {"lanes": f"{4 * i},{4 * i + 1}", "speed": "100000", "admin_status": "up", "mtu": "9100"}
    rule = lambda r: {"PRIORITY": str(1000 + r), "PACKET_ACTION": "DROP", "IP_PROTOCOL": "6",
                      "SRC_IP": f"10.{(r >> 8) & 255}.{r & 255}.0/24", "L4_DST_PORT": str(r % 65536)}
    return {
        "PORT": {name: port(i) for i, name in enumerate(names)},
        "ACL_TABLE": {f"T{t}": {"type": "L3", "stage": "ingress", "ports": names} for t in range(LISTS)},
        "ACL_RULE": {rule_key(r): rule(r) for r in range(rules)},
    }


def change(kind, number):
    """The operation on the rule of a number, or on the port of that number."""
    if kind == "field":
        return {"op": "replace", "path": f"/ACL_RULE/{rule_key(number)}/PACKET_ACTION", "value": "FORWARD"}
    if kind == "add":
        fields = {"PRIORITY": "5", "PACKET_ACTION": "DROP", "SRC_IP": "10.0.0.0/8"}
        return {"op": "add", "path": f"/ACL_RULE/T{number % LISTS}|S{number:06d}", "value": fields}
    if kind == "remove":
        return {"op": "remove", "path": f"/ACL_RULE/{rule_key(number)}"}
    return {"op": "replace", "path": f"/PORT/Ethernet{4 * number}/lanes", "value": str(9000 + number)}


def make(folder, models, ports, rules, changes, kind):
    """Writes the configuration and the patch p.json beside a copy of the models."""
    folder = pathlib.Path(folder)
    shutil.copytree(models, folder)
    text = json.dumps(configuration(ports, rules), indent=2, sort_keys=True)
    (folder / "config_db.json").write_text(text + "\n")
    (folder / "p.json").write_text(json.dumps([change(kind, i) for i in range(changes)]))
