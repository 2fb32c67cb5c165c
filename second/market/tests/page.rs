//! The page in a real browser: headless Chromium parses and draws it, and every kiosk and the settled sheet are found.

mod common;
use common::{played, Folder};
use market::page::page;
use market::story::Story;
use std::path::Path;
use std::process::Command;

fn browser(folder: &Path, arguments: &[&str], page: &Path) -> Vec<u8> {
    let output = Command::new("chromium")
        .args([
            "--headless",
            "--no-sandbox",
            "--disable-gpu",
            "--hide-scrollbars",
            "--window-size=1400,1000",
        ])
        .arg(format!(
            "--user-data-dir={}",
            folder.join("profile").display()
        ))
        .args(arguments)
        .arg(format!("file://{}", page.display()))
        .output()
        .expect("chromium starts: `make browser` installs it");
    assert!(
        output.status.success(),
        "{}",
        String::from_utf8_lossy(&output.stderr)
    );
    output.stdout
}

#[test]
fn a_browser_finds_every_kiosk_and_the_settled_sheet() {
    let folder = Folder::new("page");
    let story = Story::told("demo").expect("named");
    let played = played(&story);
    let file = folder.0.join("demo.html");
    std::fs::write(&file, page(&played)).expect("a file");

    let dom = String::from_utf8(browser(&folder.0, &["--dump-dom"], &file)).expect("text");
    assert!(dom.contains(&format!("<h1>{}</h1>", story.title)));
    for seat in 0..story.kiosks() {
        assert!(
            dom.contains(&format!("id=\"kiosk-{seat}\"")),
            "no row of kiosk {seat}"
        );
        assert!(
            dom.contains(&format!("<summary>Kiosk {seat} ")),
            "no journal of kiosk {seat}"
        );
        let listing = played.listings[seat]
            .as_ref()
            .expect("every kiosk keeps the rules");
        assert!(
            dom.contains(listing.trim_end()),
            "not the listing of kiosk {seat}"
        );
    }
    let (_, sheet) = played.settled[0].expect("settled");
    let flags = dom.matches(&format!(">sheet {sheet}</text>")).count();
    assert_eq!(flags, story.kiosks(), "a flag for each kiosk that settled");
    assert!(dom.contains("power cut: ") && dom.contains("aria-label=\"Legend\""));
    assert!(
        !dom.contains("<script") && !dom.contains("http"),
        "something from elsewhere"
    );

    let picture = folder.0.join("demo.png");
    browser(
        &folder.0,
        &[&format!("--screenshot={}", picture.display())],
        &file,
    );
    let bytes = std::fs::read(&picture).expect("a picture");
    assert!(
        bytes.starts_with(b"\x89PNG") && bytes.len() > 50_000,
        "a picture of {} bytes",
        bytes.len()
    );
}
