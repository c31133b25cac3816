//! Tests the features `ipnet` and `serde`: cargo test --features ipnet,serde.
#![cfg(all(feature = "ipnet", feature = "serde"))]
use gonxebhula::{
    ipv4_nets, ipv6_nets, Anchor, Entry, FaultCode, FaultKind, Folder, Holdings, Kind, Moment,
    Path, Place, Resources, Revocation, Uri,
};
use ipnet::{IpNet, Ipv4Net, Ipv6Net};
use serde_json::{from_value, json, to_value};
use std::net::{Ipv4Addr, Ipv6Addr};

fn octets(name: &str) -> Vec<u8> {
    let folder = concat!(env!("CARGO_MANIFEST_DIR"), "/../../examples");
    std::fs::read(format!("{folder}/{name}")).unwrap()
}

fn june() -> Moment {
    "2026-06-01".parse().unwrap()
}

/// What examples/first.cer lists, as examples/make.sh says.
fn held() -> Holdings {
    let members = ["anchor.cer", "first.cer"].map(octets);
    let path = Path::new(
        &members,
        Kind::Authority,
        Revocation::NotAsked,
        Anchor::AsGiven,
    );
    path.validate(june()).unwrap()
}

#[test]
fn resources_are_networks() {
    let held = held();
    let nets = ["10.0.0.0/12", "10.32.0.0/13", "10.40.0.0/16"];
    let nets: Vec<Ipv4Net> = nets.iter().map(|it| it.parse().unwrap()).collect();
    assert_eq!(held.ipv4_nets(), nets);
    let nets: Vec<Ipv6Net> = vec!["2001:db8::/40".parse().unwrap()];
    assert_eq!(held.ipv6_nets(), nets);
    for (net, is_held) in [
        ("10.0.0.0/12", true),
        ("10.40.255.0/24", true),
        // a network counts from its first address, whatever address it is named by
        ("10.15.255.255/12", true),
        ("10.0.0.0/11", false),
        ("10.41.0.0/32", false),
        ("2001:db8:ff::/48", true),
        ("2001:db8::/39", false),
        ("::/0", false),
    ] {
        assert_eq!(
            held.contains_net(net.parse::<IpNet>().unwrap()),
            is_held,
            "{net}"
        );
    }
    let all = [(Ipv4Addr::UNSPECIFIED, Ipv4Addr::BROADCAST)];
    assert_eq!(ipv4_nets(&all), ["0.0.0.0/0".parse::<Ipv4Net>().unwrap()]);
    let all = [(Ipv6Addr::UNSPECIFIED, Ipv6Addr::from(u128::MAX))];
    assert_eq!(ipv6_nets(&all), ["::/0".parse::<Ipv6Net>().unwrap()]);
}

#[test]
fn values_are_written_and_read() {
    let noon: Moment = "2026-06-01T12:00:00Z".parse().unwrap();
    assert_eq!(to_value(noon).unwrap(), json!("2026-06-01T12:00:00Z"));
    assert_eq!(
        from_value::<Moment>(json!("2026-06-01T12:00:00Z")).unwrap(),
        noon
    );
    for text in ["2026-02-30", "yesterday", ""] {
        assert!(from_value::<Moment>(json!(text)).is_err(), "{text}");
    }
    assert!(from_value::<Moment>(json!(5)).is_err());
    assert_eq!(to_value(Kind::EndEntity).unwrap(), json!("end_entity"));
    assert_eq!(to_value(Uri::CaIssuer).unwrap(), json!("ca_issuer"));
    let code = FaultCode::RevocationRevoked;
    assert_eq!(to_value(code).unwrap(), json!("revocation_revoked"));
    assert_eq!(
        from_value::<FaultCode>(json!("revocation_revoked")).unwrap(),
        code
    );
    assert!(from_value::<Kind>(json!("authorities")).is_err());
    assert_eq!(
        to_value(FaultKind::Revocation).unwrap(),
        json!("revocation")
    );
    assert_eq!(to_value(Place::Member(2)).unwrap(), json!({"member": 2}));

    let told = json!({
        "ipv4": [["10.0.0.0", "10.15.255.255"], ["10.32.0.0", "10.40.255.255"]],
        "ipv6": [["2001:db8::", "2001:db8:ff:ffff:ffff:ffff:ffff:ffff"]],
        "as_numbers": [{"start": 64500, "end": 64503}, {"start": 64510, "end": 64510}],
    });
    assert_eq!(to_value(held()).unwrap(), told);
    assert_eq!(from_value::<Holdings>(told).unwrap(), held());
    let listed = Resources::Listed(held().as_numbers);
    let told = to_value(&listed).unwrap();
    assert_eq!(from_value::<Resources<_>>(told).unwrap(), listed);
    let none: Resources<Vec<u32>> = Resources::Inherited;
    assert_eq!(to_value(none).unwrap(), json!("inherited"));
    let entry = Entry::new([7; 20], noon);
    assert_eq!(
        from_value::<Entry>(to_value(entry).unwrap()).unwrap(),
        entry
    );
}

#[test]
fn verdicts_are_written() {
    let members = ["anchor.cer", "first.cer", "second.cer"].map(octets);
    let lists = ["first.crl", "revoked.crl"].map(octets);
    let asked = Revocation::by_lists(&lists);
    let path = Path::new(&members, Kind::Authority, asked, Anchor::AsGiven);
    let fault = path.validate(june()).unwrap_err();
    let told = json!({
        "number": 504,
        "kind": "revocation",
        "name": "Revoked",
        "sentence": "certificate revoked",
        "place": {"member": 2},
        "octet": null,
        "field": null,
        "wanted": null,
        "found": null,
    });
    assert_eq!(to_value(fault).unwrap(), told);
    let files = [
        "anchor.cer",
        "first.cer",
        "tampered.cer",
        "first.crl",
        "make.sh",
        "object.cer",
    ]
    .map(octets);
    let locator = octets("anchor.tal");
    let judged = Folder::new(&files, &locator).judge(june()).unwrap();
    let told = to_value(&judged).unwrap();
    assert_eq!(told["anchor"], json!(0));
    assert_eq!(told["is_whole"], json!(true));
    assert_eq!(told["lines"][0], json!("anchor"));
    let accepted = &told["lines"][1]["accepted"];
    assert_eq!(accepted["issuer"], json!(0));
    assert_eq!(accepted["kind"], json!("authority"));
    assert_eq!(accepted["held"], to_value(held()).unwrap());
    let rejected = &told["lines"][2]["rejected"]["fault"];
    assert_eq!(rejected["kind"], json!("verification"));
    assert_eq!(told["lines"][3], json!("list"));
    assert_eq!(told["lines"][4], json!("neither"));
    let below = json!({"below_rejected": {"issuer": 2}});
    assert_eq!(told["lines"][5], below);
    let strings = files[2..].iter().chain(&files[..1]);
    let judged = Folder::new(strings, &locator).judge(june()).unwrap();
    assert_eq!(to_value(&judged.lines[0]).unwrap(), json!("no_issuer"));
}
