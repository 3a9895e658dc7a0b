use registryd::{kept_seats, Error, Refusal, Resolve, Seat, Selected};

/// Another thread may have done it, or a run before this one.
fn done(answer: Result<u64, Error>) -> Result<(), Error> {
    match answer {
        Ok(_) | Err(Error::Refused { refusal: Refusal::AlreadyPublished | Refusal::AlreadyYanked, .. }) => Ok(()),
        Err(other) => Err(other),
    }
}

/// Publishes what is built, withdraws what is wrong, and asks which builds fit together.
fn build(mut seat: Seat, part: &str) -> Result<Selected, Error> {
    for patch in 0..25 {
        done(seat.publish("tool", &format!("1.{patch}.0"), &[]))?;
        done(seat.publish(part, &format!("1.0.{patch}"), &[("tool", &format!("^1.{patch}"))]))?;
    }
    done(seat.yank(part, "1.0.24"))?;
    seat.resolve(Resolve { needs: &[(part, "^1")], ..Resolve::default() })
}

fn main() -> Result<(), Error> {
    let cache = kept_seats(4, "seats.journal".as_ref(), 4096)?.into_iter().zip(["app", "log", "net", "web"]);
    let threads: Vec<_> = cache.map(|(seat, part)| std::thread::spawn(move || build(seat, part))).collect();
    for thread in threads {
        println!("{:?}", thread.join().expect("no thread panics")?);
    }
    Ok(())
}
