use registryd::{Error, Options, Refusal, Registry, Resolve, Selected};

fn main() -> Result<(), Error> {
    let mut registry = Registry::embedded(&Options { journal: Some("rust-embedded.journal".into()), ..Options::default() })?;
    for (name, version, needs) in [("app", "1.0.0", &[("log", "^1.2")][..]), ("log", "1.3.0", &[])] {
        match registry.publish(name, version, needs) {
            // by a run before this one
            Ok(_) | Err(Error::Refused { refusal: Refusal::AlreadyPublished, .. }) => {}
            Err(other) => return Err(other),
        }
    }
    let asked = Resolve { needs: &[("app", "^1")], budget: Some(1000), ..Resolve::default() };
    match registry.resolve(asked) {
        Ok(Selected::Versions(versions)) => versions.iter().for_each(|(name, version)| println!("{name} {version}")),
        Ok(Selected::Nothing(_)) => println!("no selection meets the request"),
        Err(Error::Refused { refusal: Refusal::BudgetSpent, .. }) => println!("this search would take long"),
        Err(other) => return Err(other),
    }
    registry.close()
}
