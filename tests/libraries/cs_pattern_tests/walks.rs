// Which files a walk of a project gives, over trees in memory.
use cs_fakes::{Item, MemTree};
use cs_listing::{
    Choices, File, Found, FoundRepository, ListFault, Rules, Unread, UserFiles, UserRules, Walk,
    path_names, repository_above, user_rules,
};
use cs_tree::{Look, TreeFault};
use std::alloc::Global;
use std::test::Fail;

/// Puts what git asks of the folder of a repository.
fn put_repository(alloc: Global, tree: &mut MemTree, folder: &str) -> Result<(), Fail> {
    tree.put(folder, Item::Folder)?;
    for name in ["/HEAD", "/objects", "/refs"] {
        let mut path = String::from_str(alloc, folder)?;
        path.push_str(name)?;
        tree.put(path.as_str(), Item::Other)?;
    }
    Ok(())
}

/// A tree with folders, whose paths end in a slash, and files with these texts. A folder `.git` is
/// that of a repository.
fn tree_of(alloc: Global, items: &[(&str, &str)]) -> Result<MemTree, Fail> {
    let mut tree = MemTree::new(alloc, 3)?;
    for (path, text) in items {
        match path.strip_suffix('/') {
            Some(folder) if folder.ends_with("/.git") => put_repository(alloc, &mut tree, folder)?,
            Some(folder) => tree.put(folder, Item::Folder)?,
            None => tree.put(path, Item::File(text.as_bytes().to_vec(alloc)?))?,
        }
    }
    Ok(tree)
}

/// Choices without any.
fn plain(alloc: Global) -> Choices {
    Choices::new(alloc, Rules::none(alloc), Vec::new(alloc))
}

/// What a walk below a folder gives, a line for each: the paths of files, and those that cannot be
/// read after a `!`.
fn listed<T: Look>(
    alloc: Global,
    tree: &mut T,
    choices: &Choices,
    folder: &str,
) -> Result<String, Fail> {
    let start = path_names(alloc, folder)?;
    let mut walk = Walk::begin(alloc, tree, choices, &start)?;
    let mut lines = String::new(alloc);
    for _ in 0..1000 {
        let Some(found) = walk.next(tree)? else {
            return Ok(lines);
        };
        let path = match found {
            Found::File(File { path, .. }) => path,
            Found::Unread(Unread { path, .. }) => {
                lines.push('!')?;
                path
            }
        };
        lines.push_str(path.as_str())?;
        lines.push('\n')?;
    }
    Ok(lines)
}

/// Why a path could not be read, if that was found.
fn fault_of(found: &Option<Found>) -> Option<ListFault> {
    match found {
        Some(Found::Unread(unread)) => Some(unread.fault),
        _ => None,
    }
}

const PROJECT: [(&str, &str); 19] = [
    ("/r/", ""),
    ("/r/.git/", ""),
    ("/r/.git/config", ""),
    ("/r/.git/info/", ""),
    ("/r/.git/info/exclude", "notes\n"),
    ("/r/.gitignore", "*.o\n/build/\n"),
    ("/r/a-b", ""),
    ("/r/a.c", ""),
    ("/r/a.o", ""),
    ("/r/a/", ""),
    ("/r/a/.gitignore", "!b.o\r\n"),
    ("/r/a/.x", ""),
    ("/r/a/b.o", ""),
    ("/r/a/build/", ""),
    ("/r/a/build/x", ""),
    ("/r/a/c.o", ""),
    ("/r/build/", ""),
    ("/r/build/y", ""),
    ("/r/notes", ""),
];

#[test]
fn project_is_listed(rt: HostRuntime) -> Result<(), Fail> {
    let alloc = rt.alloc();
    let mut tree = tree_of(alloc, &PROJECT)?;
    let choices = plain(alloc);
    for (folder, want) in [
        (
            "/r",
            "/r/.gitignore\n/r/a-b\n/r/a.c\n/r/a/.gitignore\n/r/a/.x\n/r/a/b.o\n/r/a/build/x\n",
        ),
        // Below a folder a walk lists what the whole walk lists there.
        ("/r/a", "/r/a/.gitignore\n/r/a/.x\n/r/a/b.o\n/r/a/build/x\n"),
        // A folder that is named is searched, whatever the rules say of it.
        ("/r/build", "/r/build/y\n"),
        ("/r/a.c", "!/r/a.c\n"),
        ("/r/none", "!/r/none\n"),
    ] {
        let got = listed(alloc, &mut tree, &choices, folder)?;
        assert_eq!(rt; got.as_str(), want, "below {folder}");
    }
    Ok(())
}

#[test]
fn inner_repository_has_its_own_rules(rt: HostRuntime) -> Result<(), Fail> {
    let alloc = rt.alloc();
    let items = [
        ("/.ignore", "x.c\n"),
        ("/r/", ""),
        ("/r/.git/", ""),
        ("/r/.gitignore", "*.o\n"),
        ("/r/n/", ""),
        ("/r/n/.git/", ""),
        ("/r/n/a.o", ""),
        ("/r/n/x.c", ""),
        ("/r/n/.hidden", ""),
        ("/s/", ""),
        ("/s/.gitignore", "a\n"),
        ("/s/.ignore", "!.y\n"),
        ("/s/.x", ""),
        ("/s/.y", ""),
        ("/s/a", ""),
    ];
    let mut tree = tree_of(alloc, &items)?;
    let mut choices = plain(alloc);
    for (folder, want) in [
        ("/r", "/r/.gitignore\n/r/n/.hidden\n/r/n/a.o\n"),
        // Outside of repositories a `.gitignore` counts for nothing, and a name with a dot is left
        // out.
        ("/s", "/s/.y\n/s/a\n"),
    ] {
        let got = listed(alloc, &mut tree, &choices, folder)?;
        assert_eq!(rt; got.as_str(), want, "below {folder}");
    }
    choices.take_hidden();
    let got = listed(alloc, &mut tree, &choices, "/s")?;
    assert_eq!(rt;
        got.as_str(),
        "/s/.gitignore\n/s/.ignore\n/s/.x\n/s/.y\n/s/a\n"
    );
    choices.take_ignored();
    let got = listed(alloc, &mut tree, &choices, "/r")?;
    assert_eq!(rt;
        got.as_str(),
        "/r/.gitignore\n/r/n/.hidden\n/r/n/a.o\n/r/n/x.c\n"
    );
    Ok(())
}

/// The root of a repository and its git folder, if there is one.
fn folders_in(alloc: Global, found: &Option<FoundRepository>) -> Result<String, Fail> {
    match found {
        Some(FoundRepository { root, git }) => Ok(format!(in alloc; "{root} {git}")?),
        None => Ok(String::new(alloc)),
    }
}

#[test]
fn repository_is_what_git_takes_for_one(rt: HostRuntime) -> Result<(), Fail> {
    let alloc = rt.alloc();
    let items = [
        ("/g/", ""),
        ("/g/HEAD", ""),
        ("/g/commondir", "/r/.git\n"),
        ("/r/", ""),
        ("/r/.git/", ""),
        ("/r/.git/info/", ""),
        ("/r/.git/info/exclude", "b\n"),
        ("/w/", ""),
        ("/w/.git", "gitdir: /g\n"),
        ("/w/a", ""),
        ("/w/b", ""),
        ("/w/d/", ""),
    ];
    let mut tree = tree_of(alloc, &items)?;
    let choices = plain(alloc);
    for (folder, want) in [("/w/d", "/w /g"), ("/r", "/r /r/.git"), ("/", "")] {
        let got = repository_above(alloc, &mut tree, folder)?;
        let got = folders_in(alloc, &got)?;
        assert_eq!(rt; got.as_str(), want, "at {folder}");
    }
    let got = listed(alloc, &mut tree, &choices, "/w")?;
    assert_eq!(rt; got.as_str(), "/w/a\n");
    // Without `refs` there is no repository, so `info/exclude` counts for nothing.
    tree.put("/r/.git/refs", Item::Denied)?;
    assert_eq!(rt; repository_above(alloc, &mut tree, "/w")?.is_none(), true);
    let got = listed(alloc, &mut tree, &choices, "/w")?;
    assert_eq!(rt; got.as_str(), "!/r/.git/refs\n/w/a\n/w/b\n");
    Ok(())
}

#[test]
fn rules_of_the_user_count_in_repositories(rt: HostRuntime) -> Result<(), Fail> {
    let alloc = rt.alloc();
    let items = [
        ("/r/", ""),
        ("/r/.git/", ""),
        ("/r/.gitignore", "!b~\n"),
        ("/r/a~", ""),
        ("/r/b~", ""),
        ("/s/", ""),
        ("/s/c~", ""),
    ];
    let mut tree = tree_of(alloc, &items)?;
    let choices = Choices::new(alloc, Rules::parse(alloc, b"*~\n")?, Vec::new(alloc));
    let got = listed(alloc, &mut tree, &choices, "/")?;
    assert_eq!(rt; got.as_str(), "/r/.gitignore\n/r/b~\n/s/c~\n");
    Ok(())
}

#[test]
fn globs_and_types_choose(rt: HostRuntime) -> Result<(), Fail> {
    let alloc = rt.alloc();
    let mut tree = tree_of(alloc, &PROJECT)?;
    let mut choices = Choices::new(alloc, Rules::none(alloc), path_names(alloc, "/r")?);
    choices.add_glob("*.o")?;
    choices.add_glob("!/a/c.o")?;
    let got = listed(alloc, &mut tree, &choices, "/r")?;
    assert_eq!(rt; got.as_str(), "/r/a.o\n/r/a/b.o\n");
    let mut choices = plain(alloc);
    assert_eq!(rt; choices.add_type("c", false)?, true);
    assert_eq!(rt; choices.add_type("none", false)?, false);
    let got = listed(alloc, &mut tree, &choices, "/r")?;
    assert_eq!(rt; got.as_str(), "/r/a.c\n");
    let mut choices = plain(alloc);
    assert_eq!(rt; choices.add_type("c", true)?, true);
    choices.limit_depth(1);
    let got = listed(alloc, &mut tree, &choices, "/r")?;
    assert_eq!(rt; got.as_str(), "/r/.gitignore\n/r/a-b\n");
    Ok(())
}

#[test]
fn unread_paths_are_given_once(rt: HostRuntime) -> Result<(), Fail> {
    let alloc = rt.alloc();
    let items = [
        ("/r/", ""),
        ("/r/.git/", ""),
        ("/r/a", ""),
        ("/r/d/", ""),
        ("/r/d/x", ""),
    ];
    let mut tree = tree_of(alloc, &items)?;
    tree.put("/r/link", Item::Other)?;
    tree.put("/r/secret", Item::Denied)?;
    tree.put("/r/d/.gitignore", Item::Cut(b"x\n".to_vec(alloc)?))?;
    tree.put("/r/.gitignore", Item::Other)?;
    let choices = plain(alloc);
    let got = listed(alloc, &mut tree, &choices, "/r")?;
    assert_eq!(rt;
        got.as_str(),
        "!/r/secret\n/r/a\n!/r/d/.gitignore\n/r/d/.gitignore\n/r/d/x\n"
    );
    let mut walk = Walk::begin(alloc, &mut tree, &choices, &path_names(alloc, "/r/secret")?)?;
    let found = walk.next(&mut tree)?;
    assert_eq!(rt; fault_of(&found), Some(ListFault::Tree(TreeFault::Denied)));
    assert_eq!(rt; walk.next(&mut tree)?.is_none(), true);
    Ok(())
}

#[test]
fn user_rules_are_those_of_the_named_file(rt: HostRuntime) -> Result<(), Fail> {
    let alloc = rt.alloc();
    let user = UserFiles {
        home: "/h",
        config: "/h/.config",
        global: None,
    };
    let items = [
        ("/h/", ""),
        ("/h/.config/", ""),
        ("/h/.config/git/", ""),
        ("/h/.config/git/ignore", "*.a\n"),
        ("/h/own ignore", "*.b\n"),
        ("/r/", ""),
        ("/r/.git/", ""),
        ("/r/x.a", ""),
        ("/r/x.b", ""),
    ];
    for (settings, want) in [
        ("[user]\n\texcludesFile = /h/own ignore\n", "/r/x.b\n"),
        (
            "[Core]\n\tExcludesFile = \"~/own ignore\" ; mine\n",
            "/r/x.a\n",
        ),
        (
            "[core] excludesfile=~/own ignore \r\n[x]\nexcludesFile=y\n",
            "/r/x.a\n",
        ),
        (
            "[core]\nexcludesFile = /h/none\nexcludesFile = /h/own\" ig\"nore#\n",
            "/r/x.a\n",
        ),
        ("[core]\nexcludesFile = /h/none\n", "/r/x.a\n/r/x.b\n"),
    ] {
        let mut tree = tree_of(alloc, &items)?;
        tree.put(
            "/h/.gitconfig",
            Item::File(settings.as_bytes().to_vec(alloc)?),
        )?;
        let UserRules { rules, unread } = user_rules(alloc, &mut tree, &user, None)?;
        assert_eq!(rt; unread.len(), 0);
        let choices = Choices::new(alloc, rules, Vec::new(alloc));
        let got = listed(alloc, &mut tree, &choices, "/r")?;
        assert_eq!(rt; got.as_str(), want, "with {settings}");
    }
    Ok(())
}
