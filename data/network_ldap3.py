"""What Python's ldap3 says to a server of LDAP on a port of the loopback: `network_ldap3.py PORT`."""
import sys

from ldap3 import BASE, MODIFY_ADD, SASL, Connection, Server

ADMIN, SECRET, ROOT = "cn=admin,dc=example,dc=org", "secret", "dc=example,dc=org"
FILTERS = ["(cn=Bob)", "(&(cn=B*b*)(|(sn=X)(!(sn=Y))))", "(cn:dn:2.5.13.2:=Bob)", "(mail>=b)"]


def main() -> None:
    """Binds, writes, searches, asks and leaves."""
    server = Server("127.0.0.1", int(sys.argv[1]), get_info=None)
    connection = Connection(server, ADMIN, SECRET)
    connection.bind()
    connection.add(f"cn=Bob,{ROOT}", ["inetOrgPerson"], {"sn": "Brown", "mail": ["bob@example.org"]})
    connection.modify(f"cn=Bob,{ROOT}", {"description": [(MODIFY_ADD, ["a neighbour"])]})
    for it in FILTERS:
        connection.search(ROOT, it, attributes=["cn", "sn"])
    connection.search(ROOT, "(objectClass=*)", search_scope=BASE, paged_size=5, types_only=True, time_limit=9)
    connection.compare(f"cn=Bob,{ROOT}", "sn", "Brown")
    connection.modify_dn(f"cn=Bob,{ROOT}", "cn=Rob", new_superior=ROOT)
    connection.extend.standard.who_am_i()
    connection.extend.standard.modify_password(f"cn=Rob,{ROOT}", None, "new")
    connection.delete(f"cn=Rob,{ROOT}")
    connection.abandon(1)
    connection.unbind()
    for mechanism in ("DIGEST-MD5", "EXTERNAL"):
        other = Connection(server, authentication=SASL, sasl_mechanism=mechanism, sasl_credentials=(None, "ann", "secret", None))
        try:
            other.bind()
        finally:
            other.unbind()


if __name__ == "__main__":
    main()
