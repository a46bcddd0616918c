"""Folders of a switch as switches are: VLANs with members, port channels, interfaces and access lists, and patches on it."""
import json, pathlib, shutil

# tables that no model describes, which each switch has
WITHOUT_MODEL = {
    "BGP_NEIGHBOR": {"10.0.0.57": {"asn": "64600", "holdtime": "10", "keepalive": "3", "local_addr": "10.0.0.56",
                                   "name": "ARISTA01T1", "nhopself": "0", "rrclient": "0"}},
    "VLAN_INTERFACE": {"Vlan1000": {}, "Vlan1000|192.168.0.1/21": {}},
    "FEATURE": {"lldp": {"state": "enabled", "auto_restart": "enabled"}, "snmp": {"state": "enabled"}},
    "MGMT_INTERFACE": {"eth0|10.250.0.101/24": {"gwaddr": "10.250.0.1"}},
    "BUFFER_PG": {"Ethernet0|3-4": {"profile": "pg_lossless_100000_5m_profile"}},
}

# what is the same whatever the number of ports
FIXED = {
    "LOOPBACK_INTERFACE": {key: {} for key in ["Loopback0", "Loopback0|10.1.0.32/32", "Loopback0|fc00:1::32/128",
                                               "Loopback1", "Loopback1|10.1.0.33/32"]},
    "NTP_SERVER": {"10.20.8.129": {}, "10.20.8.130": {}},
    "SYSLOG_SERVER": {"10.20.6.16": {"port": "514"}},
    "DEVICE_METADATA": {"localhost": {"bgp_asn": "65100", "hostname": "str-msn2700-01", "hwsku": "ACS-MSN2700",
                                      "mac": "ec:0d:9a:00:11:22", "platform": "x86_64-mlnx_msn2700-r0",
                                      "type": "ToRRouter"}},
}


def port(number):
    return f"Ethernet{4 * number}"


def lanes(number):
    return [str(4 * number + k) for k in range(4)]


def port_fields(number):
    return {"admin_status": "down" if number % 8 == 7 else "up", "alias": f"etp{number + 1}", "speed": "100000",
            "lanes": ",".join(lanes(number)), "mtu": "9100", "description": f"SRV{number:02d}:eth0"}


def members(ports, vlans):
    """Each server's port untagged in one VLAN, and each fourth tagged in the next one too."""
    found = {f"Vlan{1000 + i % vlans}|{port(i)}": {"tagging_mode": "untagged"} for i in range(ports)}
    tagged = {f"Vlan{1000 + (i + 1) % vlans}|{port(i)}": {"tagging_mode": "tagged"} for i in range(0, ports, 4)}
    return {**found, **tagged}


def interface(number):
    """A routed port with an address of each kind."""
    name = port(number)
    return {name: {}, f"{name}|10.{number // 128}.{number % 128}.0/31": {}, f"{name}|fc00::{4 * number + 1:x}/126": {}}


def rule(number):
    return {"PRIORITY": str(10000 - number), "PACKET_ACTION": "FORWARD" if number % 3 else "DROP",
            "SRC_IP": f"10.{number % 250}.0.0/16", "IP_PROTOCOL": "6", "L4_DST_PORT": str(1024 + number)}


def configuration(ports):
    """The first half of the ports are servers', a quarter stands in port channels of two, the last quarter is routed."""
    half, quarter, vlans = ports // 2, ports // 4, max(2, ports // 8)
    channels = [f"PortChannel{101 + k}" for k in range(quarter // 2)]
    vlan = lambda k: {"vlanid": str(1000 + k), "description": f"rack{k}",
                      "dhcp_servers": [f"192.0.2.{1 + k % 200}", f"192.0.2.{2 + k % 200}"]}
    rules = {f"DATAACL|RULE_{r}": rule(r) for r in range(1, half + 1)}
    return {
        "PORT": {port(i): port_fields(i) for i in range(ports)},
        "VLAN": {f"Vlan{1000 + k}": vlan(k) for k in range(vlans)},
        "VLAN_MEMBER": members(half, vlans),
        "PORTCHANNEL": {name: {"admin_status": "up", "min_links": "1", "mtu": "9100"} for name in channels},
        "PORTCHANNEL_MEMBER": {f"{name}|{port(half + 2 * k + j)}": {} for k, name in enumerate(channels) for j in (0, 1)},
        "INTERFACE": {key: fields for i in range(half + quarter, ports) for key, fields in interface(i).items()},
        "ACL_TABLE": {
            "DATAACL": {"policy_desc": "DATAACL", "ports": channels + [port(i) for i in range(0, half, 2)],
                        "stage": "ingress", "type": "L3"},
            "EVERFLOW": {"policy_desc": "EVERFLOW", "ports": [port(i) for i in range(half)],
                         "stage": "ingress", "type": "MIRROR"},
        },
        "ACL_RULE": {**rules, "DATAACL|DEFAULT_RULE": {"PRIORITY": "1", "PACKET_ACTION": "DROP"}},
        "NTP": {"global": {"src_intf": port(ports - 1)}},
        "CABLE_LENGTH": {"AZURE": {port(i): "5m" for i in range(ports)}},
        **FIXED,
        **WITHOUT_MODEL,
    }


def of_all_ports(ports, field, value):
    """The operations that give a field of each port a value."""
    return [{"op": "replace", "path": f"/PORT/{port(i)}/{field}", "value": value(i)} for i in range(ports)]


def other_rules(ports):
    """The operation that puts other access rules in the place of all."""
    fields = lambda r: {"PRIORITY": str(9000 - r), "PACKET_ACTION": "FORWARD", "DST_IP": f"172.16.{r}.0/24",
                        "IP_PROTOCOL": "17", "L4_DST_PORT": str(5000 + r)}
    rules = {f"DATAACL|NEW_{r}": fields(r) for r in range(1, ports // 2 + 1)}
    last = {"DATAACL|DEFAULT_RULE": {"PRIORITY": "1", "PACKET_ACTION": "DROP"}}
    return [{"op": "replace", "path": "/ACL_RULE", "value": {**rules, **last}}]


def breakout(number):
    """The operations that make four ports of one."""
    fields = lambda k: {"admin_status": "up", "alias": f"etp{number + 1}{'abcd'[k]}", "lanes": str(4 * number + k),
                        "mtu": "9100", "speed": "25000"}
    added = [{"op": "add", "path": f"/PORT/Ethernet{4 * number + k}", "value": fields(k)} for k in range(4)]
    return [{"op": "remove", "path": f"/PORT/{port(number)}"}, *added]


# the patches by their kinds; those of the last two spend any budget, since a must or the lanes of all are in the way
PATCHES = {
    "speed": lambda ports: of_all_ports(ports, "speed", lambda i: "40000"),
    "mtu": lambda ports: of_all_ports(ports, "mtu", lambda i: "9216"),
    "rules": other_rules,
    "must": lambda ports: breakout(ports - 1),
    "lanes of all": lambda ports: of_all_ports(ports, "lanes", lambda i: ",".join(reversed(lanes(i)))),
}


def make(folder, models, ports, kind):
    """Writes the configuration and the patch p.json beside a copy of the models."""
    folder = pathlib.Path(folder)
    shutil.copytree(models, folder)
    (folder / "config_db.json").write_text(json.dumps(configuration(ports), indent=4))
    (folder / "p.json").write_text(json.dumps(PATCHES[kind](ports)))
