use registryd::{Error, Options, Refusal, Registry, Resolve, Selected};

fn main() -> Result<(), Error> {
    let mut registry = Registry::open("./registryd", &Options { journal: Some("rust.journal".into()), ..Options::default() })?;
    for (name, version, needs) in [("app", "1.0.0", &[("log", "^1.2")][..]), ("log", "1.3.0", &[])] {
        match registry.publish(name, version, needs) {
            // by a run before this one
            Ok(_) | Err(Error::Refused { refusal: Refusal::AlreadyPublished, .. }) => {}
            Err(other) => return Err(other),
        }
    }
    println!("{:?}", registry.resolve(Resolve { needs: &[("app", "^1")], ..Resolve::default() })?);
    let asked = Resolve { needs: &[("app", "^1"), ("log", "^2")], explain: true, ..Resolve::default() };
    if let Selected::Nothing(Some(why)) = registry.resolve(asked)? {
        why.tree().iter().for_each(|tree| println!("{}", tree.sentences().join("\n")));
    }
    if let Err(error) = registry.resolve(Resolve { needs: &[("app", "^1"), ("log", "==1")], ..Resolve::default() }) {
        println!("{error}");
    }
    registry.close()
}
