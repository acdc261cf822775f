//! Messages and tokens under what a caller states and requires: each row of `rows/terms.json` and `rows/checklist.json`.

use std::path::Path;

use crate::hex;
use crate::json::Json;
use cose::{
    admit_claims, admit_claims_sized, admit_sized, authenticate_detached_sized, authenticate_sized,
    Block, Bucket, Claim, Claims, Error, Label, Large, NotAdmitted, Options, Requirement,
    Requirements, SignInput, Size, Small, Terms, TermsTable, Verdict, Wanted,
};

const CLAIMS: [(&str, Claim); 7] = [
    ("iss", Claim::Iss),
    ("sub", Claim::Sub),
    ("aud", Claim::Aud),
    ("exp", Claim::Exp),
    ("nbf", Claim::Nbf),
    ("iat", Claim::Iat),
    ("cti", Claim::Cti),
];

/// What a group states and requires.
struct Setting<'g> {
    group: &'g Json,
    keys: Vec<u8>,
    aad: Vec<u8>,
    algorithms: Option<Vec<i32>>,
    understood: Vec<i64>,
    present: Vec<Claim>,
}

/// The numbers of a list that a group may have.
fn numbers(group: &Json, name: &str) -> Option<Vec<i64>> {
    let found = group.get(name)?;
    Some(found.items().iter().map(Json::number).collect())
}

/// A number that may be too large for a number of JSON.
fn large_number<T: std::str::FromStr>(json: &Json) -> T {
    let number = json.text().parse().ok();
    number.expect("a number in its range")
}

fn small_number<T: TryFrom<i64>>(json: &Json) -> T {
    let number = T::try_from(json.number()).ok();
    number.expect("a number in its range")
}

fn claim_named(name: &Json) -> Claim {
    let found = CLAIMS.iter().find(|(it, _)| *it == name.text());
    found.expect("a claim's name").1
}

impl<'g> Setting<'g> {
    fn of(group: &'g Json) -> Self {
        let member = |name| group.get(name).expect("each group has it");
        let algorithms = numbers(group, "algorithms").map(|them| {
            let narrowed = them.iter().map(|&it| i32::try_from(it));
            narrowed.collect::<Result<_, _>>().expect("algorithms")
        });
        let present = group.get("present").map_or(&[][..], Json::items);
        Setting {
            group,
            keys: hex(member("keys").text()),
            aad: hex(member("aad").text()),
            algorithms,
            understood: numbers(group, "understood").unwrap_or_default(),
            present: present.iter().map(claim_named).collect(),
        }
    }

    fn says(&self, name: &str) -> bool {
        self.group.get(name) == Some(&Json::Bool(true))
    }

    fn wanted(&self) -> Wanted {
        match self.group.get("wanted").map(Json::text) {
            Some("tagged") => Wanted::Tagged,
            Some("mac0") => Wanted::Mac0,
            Some("sign1") => Wanted::Sign1,
            other => panic!("no kind is {other:?}"),
        }
    }

    fn terms(&self) -> Terms<'_> {
        Terms {
            keys: &self.keys,
            options: Options {
                aad: &self.aad,
                wanted: self.wanted(),
            },
            algorithms: self.algorithms.as_deref(),
            least_secret: self.group.get("leastSecret").map_or(0, small_number),
            payload_limit: self.group.get("payloadLimit").map(small_number),
            understood: &self.understood,
            short_mac: self.says("shortMac"),
            without_alg: self.says("withoutAlg"),
        }
    }

    fn requirements(&self) -> Requirements<'_> {
        let group = self.group;
        Requirements {
            now: large_number(group.get("now").expect("there is a time")),
            leeway: small_number(group.get("leeway").expect("there is a leeway")),
            issuer: group.get("iss").map(Json::text),
            subject: group.get("sub").map(Json::text),
            audience: group.get("aud").map(Json::text),
            present: &self.present,
            max_lifetime: group.get("lifetime").map(large_number),
            max_age: group.get("age").map(large_number),
            without_exp: self.says("withoutExp"),
        }
    }
}

/// What a test says of its signature: asked about anything else, the contrary.
fn is_good(test: &Json, input: &SignInput) -> bool {
    let Some(said) = test.get("signature") else {
        return false;
    };
    let bytes = |name| hex(said.get(name).expect("it is there").text());
    let is_asked = input.digest() == bytes("digest") && input.signature() == bytes("signature");
    is_asked == (said.get("holds") == Some(&Json::Bool(true)))
}

/// A refusal, as rows have it. A key set is refused as a message is.
fn refused(error: Error) -> String {
    let of = match error {
        Error::Claims(_) => "claims",
        _ => "message",
    };
    match error.refusal() {
        Some(refusal) => format!("refused {of} {} {}", refusal.reason.name(), refusal.place),
        None => format!("{error:?}"),
    }
}

fn not_admitted(why: NotAdmitted) -> String {
    match why {
        NotAdmitted::Error(error) => refused(error),
        NotAdmitted::Unmet {
            requirement: Requirement::Present(claim),
            place,
        } => format!("unmet Present {claim:?} {place}").to_lowercase(),
        NotAdmitted::Unmet { requirement, place } => {
            format!("unmet {requirement:?} {place}").to_lowercase()
        }
    }
}

/// Registered claims, as rows have them.
fn plain(claims: &Claims) -> Json {
    let text = |it: &str| Json::Text(it.to_string());
    let audiences: Vec<_> = claims.audiences().map(text).collect();
    let date = |date: Option<i128>| date.map(|it| Json::Text(it.to_string()));
    let digits = |bytes: &[u8]| {
        let pairs = bytes.iter().map(|it| format!("{it:02x}"));
        Json::Text(pairs.collect::<Vec<_>>().concat())
    };
    let members = [
        ("iss", claims.iss.map(text)),
        ("sub", claims.sub.map(text)),
        ("aud", Some(Json::Array(audiences))),
        ("exp", date(claims.exp)),
        ("nbf", date(claims.nbf)),
        ("iat", date(claims.iat)),
        ("cti", claims.cti.map(digits)),
    ];
    let there = members.into_iter().filter_map(|(name, value)| {
        let value = value.filter(|it| *it != Json::Array(vec![]))?;
        Some((name.to_string(), value))
    });
    Json::Object(there.collect())
}

fn admitted(claims: Result<Claims, NotAdmitted>) -> String {
    match claims {
        Ok(claims) => format!("admitted {:?}", plain(&claims)),
        Err(why) => not_admitted(why),
    }
}

/// The answer that a row expects.
fn expected(test: &Json) -> String {
    let result = test.get("result").expect("each test has one");
    let member = |name| result.get(name).map(Json::text);
    let verdict = member("verdict").expect("it has a verdict");
    let place = || result.get("place").expect("it has a place").number();
    match (verdict, member("reason")) {
        ("admitted", _) => format!("admitted {:?}", result.get("claims").expect("claims")),
        ("unmet", _) => {
            let of_claim = [member("requirement"), member("claim")];
            let words: Vec<_> = of_claim.into_iter().flatten().collect();
            format!("unmet {} {}", words.join(" "), place()).to_lowercase()
        }
        (verdict, Some(reason)) => format!("{verdict} {reason} {}", place()),
        (verdict, None) => verdict.to_string(),
    }
}

/// Runs each test of a file: how many it has.
fn each_test(name: &str, mut run: impl FnMut(&Setting, &Json)) -> usize {
    let folder = Path::new(env!("CARGO_MANIFEST_DIR")).join("../../rows");
    let text = std::fs::read_to_string(folder.join(name)).expect("the file can be read");
    let file = Json::read(&text);
    let groups = file.get("testGroups").expect("it has groups").items();
    let mut count = 0;
    for group in groups {
        let setting = Setting::of(group);
        for test in group.get("tests").expect("it has tests").items() {
            count += 1;
            run(&setting, test);
        }
    }
    count
}

fn token_of(test: &Json) -> Vec<u8> {
    hex(test.get("token").expect("there is a token").text())
}

/// The claims of what a message was found to be.
fn claims_in<S: Size>(setting: &Setting, found: &Result<Verdict, Error>) -> String {
    match found {
        Ok(Verdict::Authentic(message)) => {
            let requirements = setting.requirements();
            admitted(admit_claims_sized::<S>(&requirements, message.payload))
        }
        Ok(Verdict::Signed(_)) => "it is signed".to_string(),
        Err(error) => refused(*error),
    }
}

fn run_terms<S: Size>(setting: &Setting, test: &Json) {
    let (token, wanted) = (token_of(test), expected(test));
    let (terms, requirements) = (setting.terms(), setting.requirements());
    let seen = admitted(admit_sized::<S>(&terms, &requirements, &token));
    assert_eq!(seen, wanted, "admit: {test:?}");
    let seen = claims_in::<S>(setting, &authenticate_sized::<S>(&terms, &token));
    assert_eq!(seen, wanted, "authenticate and admit_claims: {test:?}");
}

/// The same under a table that is read once: both calls leave it as it is.
fn run_terms_in_table(setting: &Setting, test: &Json) {
    let (token, wanted) = (token_of(test), expected(test));
    let mut block = Block::new();
    let table = TermsTable::read(&mut block, &setting.terms()).expect("the keys are good");
    for _ in 0..2 {
        let seen = admitted(table.admit(&setting.requirements(), &token));
        assert_eq!(seen, wanted, "TermsTable::admit: {test:?}");
        let seen = claims_in::<Small>(setting, &table.authenticate(&token));
        assert_eq!(seen, wanted, "TermsTable::authenticate: {test:?}");
    }
}

#[test]
fn terms() {
    let count = each_test("terms.json", |setting, test| {
        run_terms::<Small>(setting, test);
        run_terms::<Large>(setting, test);
    });
    assert!(count > 100);
}

#[test]
fn terms_in_table() {
    let count = each_test("terms.json", run_terms_in_table);
    println!("through a table: {count} of the rows of terms");
    assert!(count > 100);
}

/// Whether the buckets have the parameters without which the caller drops a message.
fn has_parameters<S: Size>(setting: &Setting, message: &[u8]) -> bool {
    let buckets = [
        ("protected", Bucket::Protected),
        ("unprotected", Bucket::Unprotected),
    ];
    buckets.into_iter().all(|(name, bucket)| {
        let labels = numbers(setting.group, name).unwrap_or_default();
        let mut labels = labels.into_iter().map(Label::Int);
        labels.all(|label| S::parameter(message, setting.wanted(), bucket, label).is_some())
    })
}

/// Of a signature that isn't good no place is known.
const NOT_GOOD: &str = "the signature isn't good";

/// What a caller who follows SECURITY's checklist makes of a message: the safe calls, with what it states.
fn checked<S: Size>(setting: &Setting, test: &Json) -> Result<&'static str, String> {
    let (token, terms, requirements) = (token_of(test), setting.terms(), setting.requirements());
    let holds = |input: &SignInput| is_good(test, input);
    if let Some(payload) = test.get("payload") {
        let payload = hex(payload.text());
        let verdict = authenticate_detached_sized::<S>(&terms, &token, &payload);
        let found = verdict.map_err(refused)?.payload_if(holds);
        return found.map(|_| "accepted").ok_or(NOT_GOOD.to_string());
    }
    match admit_sized::<S>(&terms, &requirements, &token) {
        Err(NotAdmitted::Error(Error::Signed)) => {
            let verdict = authenticate_sized::<S>(&terms, &token).map_err(refused)?;
            let payload = verdict.payload_if(holds).ok_or(NOT_GOOD)?;
            admit_claims_sized::<S>(&requirements, payload).map_err(not_admitted)?;
        }
        other => drop(other.map_err(not_admitted)?),
    }
    let is_whole = has_parameters::<S>(setting, &token);
    Ok(if is_whole { "accepted" } else { "dropped" })
}

/// The same by a table; it has no call for a detached payload.
fn checked_in_table(setting: &Setting, test: &Json) -> Result<&'static str, String> {
    let (token, requirements) = (token_of(test), setting.requirements());
    let mut block = Block::new();
    let table = TermsTable::read(&mut block, &setting.terms()).map_err(refused)?;
    match table.admit(&requirements, &token) {
        Err(NotAdmitted::Error(Error::Signed)) => {
            let verdict = table.authenticate(&token).map_err(refused)?;
            let payload = verdict.payload_if(|input| is_good(test, input));
            admit_claims(&requirements, payload.ok_or(NOT_GOOD)?).map_err(not_admitted)?;
        }
        other => drop(other.map_err(not_admitted)?),
    }
    let is_whole = has_parameters::<Small>(setting, &token);
    Ok(if is_whole { "accepted" } else { "dropped" })
}

/// The answer that a row of the checklist expects.
fn expected_of_checklist(test: &Json) -> String {
    let wanted = expected(test);
    if test.get("signature").is_some() && wanted.starts_with("refused message BadAuth ") {
        return NOT_GOOD.to_string();
    }
    wanted
}

fn run_checklist<S: Size>(setting: &Setting, test: &Json) {
    let seen = checked::<S>(setting, test).map_or_else(|why| why, str::to_string);
    assert_eq!(seen, expected_of_checklist(test), "{test:?}");
}

/// Each line of SECURITY's checklist that a caller states: the bad case is refused, and the good one isn't.
#[test]
fn checklist() {
    let count = each_test("checklist.json", |setting, test| {
        run_checklist::<Small>(setting, test);
        // the limit of the small calls is the reason
        if !expected(test).contains(" PastRoom ") {
            run_checklist::<Large>(setting, test);
        }
    });
    println!("checklist: {count} rows");
    assert!(count > 50);
}

#[test]
fn checklist_in_table() {
    let mut detached = 0;
    let count = each_test("checklist.json", |setting, test| {
        if test.get("payload").is_some() {
            detached += 1;
            return;
        }
        let seen = checked_in_table(setting, test).map_or_else(|why| why, str::to_string);
        assert_eq!(seen, expected_of_checklist(test), "{test:?}");
    });
    println!(
        "through a table: {} of the checklist's rows",
        count - detached
    );
    assert!(count - detached > 50);
}
