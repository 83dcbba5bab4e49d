"""Nine clusters as people run them, at rest: their CIBs are in .ci/cibs/everyday."""
import os
import xml.etree.ElementTree as ElementTree

FOLDER = os.path.join(os.path.dirname(os.path.dirname(os.path.abspath(__file__))), "cibs", "everyday")


class Cluster:
    """A cluster: the node on which its service runs and another, the service and what holds it, the clone that is
    promoted, its primitive and the interval of the monitor of the promoted copy, another clone, and the attribute of
    ping."""

    def __init__(self, name, active, passive, service, moved, promoted=None, clone=None, ping=None, threshold=0):
        self.name, self.active, self.passive, self.service, self.moved = name, active, passive, service, moved
        self.promoted, self.clone, self.ping, self.threshold = promoted, clone, ping, threshold

    def cib(self):
        return ElementTree.parse(os.path.join(FOLDER, self.name + ".xml")).getroot()


CLUSTERS = [
    Cluster("sap-hana", "hana-a", "hana-b", "rsc_address_prd", "rsc_address_prd", ("msl_hana_prd", "rsc_hana_prd", 60000), "cln_topology_prd"),
    Cluster("sap-hana-angi", "angi-a", "angi-b", "rsc_ip_q01", "rsc_ip_q01", ("mst_con_q01", "rsc_con_q01", 60000), "cln_top_q01"),
    Cluster("nfs-drbd", "store1", "store2", "exp_home", "g_share", ("ms_share", "drbd_share", 15000), "cl_daemon"),
    Cluster("nfs-drbd-ping", "filer-a", "filer-b", "p_server", "g_export", ("ms_drbd_export", "p_drbd_export", 29000), "cl_reach", "pingd", 3),
    Cluster("postgresql", "pg1", "pg2", "vip-service", "vips", ("msPostgresql", "pgsql", 3000), "gateways", "default_ping_set", 1),
    Cluster("postgresql-paf", "paf1", "paf2", "pgsql-ip", "pgsql-ip", ("pgsql-ha", "pgsqld", 15000), None, None, 5),
    Cluster("gfs2", "gfs-a", "gfs-b", "report", "report", None, "locking-clone"),
    Cluster("web", "web-a", "web-c", "shop", "shop", None, "reaches", "pingd", 3),
    Cluster("kvm", "kvm2", "kvm1", "vm-db", "vm-db", None, "c-base", None, 3),
]
