use pelzaune::{column, locate, parse_nanoseconds, parse_offset, Column, Date, Description, Format, Instant, Kind, Local, Moment};
use pelzaune::{Parts, Time};
use std::time::{Duration, SystemTime, UNIX_EPOCH};

#[test]
fn values() {
    let m = Moment::parse("1985-04-12T23:20:50.52-08:30", Format::Rfc3339).unwrap();
    assert_eq!((m.year, m.month, m.day, m.hour, m.minute, m.second), (1985, 4, 12, 23, 20, 50));
    assert_eq!((m.nanosecond, m.offset), (520_000_000, -30_600));
    let d = Date::parse("2020-W53-6", Format::Iso8601).unwrap();
    assert_eq!((d.year, d.month, d.day), (2021, 1, 2));
    let t = Time::parse(b"T03:04:05,5", Format::Iso8601).unwrap();
    assert_eq!((t.hour, t.minute, t.second, t.nanosecond), (3, 4, 5, 500_000_000));
    let l = Local::parse("2021-01-02T23:04:05-02:00", Format::Rfc3339).unwrap();
    assert_eq!((l.day, l.hour), (2, 23));
    let u = Local::parse_utc("2021-01-02T23:04:05-02:00", Format::Rfc3339).unwrap();
    assert_eq!((u.day, u.hour), (3, 1));
    assert_eq!(parse_offset("Tue, 1 Jul 2003 10:52:37 +0200", Format::Rfc2822), Ok(7_200));
    assert_eq!(parse_nanoseconds("1970-W01-4T00:00:01Z", Format::Iso8601), Ok(1_000_000_000));
}

#[test]
fn refusals() {
    let error = Moment::parse("1985-04-31T23:20:50Z", Format::Rfc3339).unwrap_err();
    assert_eq!((error.kind(), error.component().as_deref()), (Kind::RangeOfOthers, Some("day")));
    assert_eq!(error.to_string(), "day is out of range for the other components");
    let error = Moment::parse("1985-04-12T23:20:50Zx", Format::Rfc3339).unwrap_err();
    assert_eq!((error.kind(), error.component()), (Kind::Trailing, None));
    let error = parse_nanoseconds("2262-04-11T23:47:16.854775808Z", Format::Rfc3339).unwrap_err();
    assert_eq!((error.kind(), error.component()), (Kind::TooWide, None));
    for format in [Format::Rfc3339, Format::Rfc3339Strict, Format::Rfc2822, Format::Iso8601] {
        assert!(Moment::parse("", format).is_err());
        assert!(Moment::parse([0xff, 0x00], format).is_err());
    }
}

#[test]
fn separators() {
    for separator in ["T", "t", " "] {
        let text = format!("1985-04-12{separator}23:20:50Z");
        let strict = Moment::parse(&text, Format::Rfc3339Strict).unwrap();
        assert_eq!(Ok(strict), Moment::parse(&text, Format::Rfc3339));
        assert_eq!(strict.text(Format::Rfc3339Strict).unwrap().as_str(), "1985-04-12T23:20:50Z");
    }
    for (text, index, component) in [
        ("1985-04-12923:20:50Z", 10, "separator"),
        ("1985-04-12_23:20:50Z", 10, "separator"),
        ("1985-13-12923:20:50Z", 5, "month"),
    ] {
        let error = Date::parse(text, Format::Rfc3339Strict).unwrap_err();
        assert_eq!((error.kind(), error.component().as_deref()), (Kind::InvalidComponent, Some(component)));
        let place = locate(text, Format::Rfc3339Strict).unwrap();
        assert_eq!((place.index, place.component().as_deref()), (index, Some(component)));
    }
    assert!(Moment::parse("1985-04-12923:20:50Z", Format::Rfc3339).is_ok());
}

#[test]
fn descriptions() {
    let ymd = Description::brackets("[year]-[month]-[day]").unwrap();
    let d = Date::parse("2021-03-04", Format::Described(&ymd)).unwrap();
    assert_eq!((d.year, d.month, d.day), (2021, 3, 4));
    let error = Date::parse("2021-02-29", Format::Described(&ymd)).unwrap_err();
    assert_eq!((error.kind(), error.component().as_deref()), (Kind::RangeOfOthers, Some("day")));
    let log = Description::strftime("%d/%b/%Y:%H:%M:%S %z").unwrap();
    let m = Moment::parse("02/Jan/2021:03:04:05 -0030", Format::Described(&log)).unwrap();
    assert_eq!((m.month, m.second, m.offset), (1, 5, -1_800));
    let bracket = Description::brackets_1("[[[year]").unwrap();
    assert!(Date::parse("[2021", Format::Described(&bracket)).is_err());
    let wrong = Description::brackets("[year]-[month").unwrap_err();
    assert_eq!((wrong.kind(), wrong.index), (Kind::UnclosedBracket, Some(7)));
    assert_eq!(wrong.to_string(), "an opening bracket is not closed at byte index 7");
    let long = "-".repeat(65);
    assert_eq!(Description::brackets(&long).unwrap_err().to_string(), "the description is too long");
}

#[test]
fn the_clock_of_the_system() {
    let after = Instant::parse("Fri, 02 Jan 1970 00:00:00 GMT", Format::Rfc2822).unwrap();
    assert_eq!(after.to_system_time(), UNIX_EPOCH.checked_add(Duration::from_secs(86_400)));
    let before = Instant::parse("1969-12-31T23:59:59.9Z", Format::Rfc3339).unwrap();
    assert_eq!((before.seconds, before.nanoseconds), (-1, 900_000_000));
    assert_eq!(before.to_system_time(), UNIX_EPOCH.checked_sub(Duration::from_millis(100)));
}

#[test]
fn conversions_of_the_clock() {
    for (text, seconds, nanoseconds) in [
        ("1970-01-01T00:00:00Z", 0, 0),
        ("1970-01-02T00:00:00.5Z", 86_400, 500_000_000),
        ("1969-12-31T23:59:59Z", -1, 0),
        ("1969-12-31T23:59:58.25Z", -2, 250_000_000),
    ] {
        let instant: Instant = text.parse().unwrap();
        assert_eq!(instant, Instant { seconds, nanoseconds });
        let time = SystemTime::try_from(instant).unwrap();
        assert_eq!(Some(time), instant.to_system_time());
        assert_eq!(Instant::try_from(time), Ok(instant));
    }
    let error = SystemTime::try_from(Instant { seconds: i64::MIN, nanoseconds: 0 });
    assert!(error.is_ok() || error.unwrap_err().to_string() == "instant out of range");
}

#[test]
fn texts_of_the_standard_formats() {
    let m: Moment = "1985-04-12T23:20:50.52-08:30".parse().unwrap();
    assert_eq!(Ok(m), Moment::parse("1985-04-12T23:20:50.52-08:30", Format::Rfc3339));
    assert_eq!("2020-366".parse(), Ok(Date { year: 2020, month: 12, day: 31 }));
    assert_eq!("T03:04,5".parse(), Ok(Time { hour: 3, minute: 4, second: 30, nanosecond: 0 }));
    let l: Local = "20210102T030405".parse().unwrap();
    assert_eq!((l.year, l.month, l.day, l.hour, l.minute, l.second), (2021, 1, 2, 3, 4, 5));
    assert_eq!("1985-04-12".parse::<Moment>().unwrap_err().kind(), Kind::InvalidComponent);
    for (name, number) in [("rfc3339", 1), ("RFC3339", 1), ("RFC3339-Strict", 2), ("Rfc2822", 3), ("ISO8601", 4)] {
        let format: Format = name.parse().unwrap();
        assert_eq!(format.name(), Some(["rfc3339", "rfc3339-strict", "rfc2822", "iso8601"][number - 1]));
    }
    for name in ["", "rfc", "rfc3339 ", "iso-8601", "[year]"] {
        let error = name.parse::<Format>().unwrap_err();
        assert_eq!(error.to_string(), "unknown format, expected one of `rfc3339` `rfc3339-strict` `rfc2822` `iso8601`");
    }
}

#[test]
fn errors_for_programmers() {
    let error = Moment::parse("1985-04-31T23:20:50Z", Format::Rfc3339).unwrap_err();
    assert_eq!(format!("{error:?}"), r#"Error { kind: RangeOfOthers, component: Some("day") }"#);
    let error = Description::brackets("[year]-[moth]").unwrap_err();
    assert_eq!(format!("{error:?}"), "InvalidDescription { kind: ComponentName, index: Some(8) }");
    let place = locate("2021-13-02T03:04:05Z", Format::Rfc3339).unwrap();
    assert_eq!(format!("{place:?}"), r#"Place { index: 5, byte: None, kind: InvalidComponent, component: Some("month") }"#);
}

#[test]
fn the_interface_is_the_one_that_was_written_for() {
    assert_eq!(pelzaune::version() >> 8, 1);
}

#[test]
fn parts() {
    let parts = Parts::parse("2020-W53-5", Format::Iso8601).unwrap();
    assert_eq!(parts.date, Ok(Date { year: 2021, month: 1, day: 1 }));
    assert_eq!((parts.time.unwrap_err().kind(), parts.offset.unwrap_err().kind()), (Kind::Insufficient, Kind::Insufficient));
    let clock = Description::strftime("%H:%M %z").unwrap();
    let parts = Parts::parse("23:59 -0030", Format::Described(&clock)).unwrap();
    assert_eq!((parts.time.map(|t| (t.hour, t.minute)), parts.offset), (Ok((23, 59)), Ok(-1_800)));
    assert_eq!(Parts::parse("2020-W53-5x", Format::Iso8601).unwrap_err().kind(), Kind::Trailing);
}

#[test]
fn places() {
    assert_eq!(locate("2021-01-02T03:04:05Z", Format::Rfc3339), None);
    let place = locate("2021-13-02T03:04:05Z", Format::Rfc3339).unwrap();
    assert_eq!((place.index, place.kind(), place.component().as_deref()), (5, Kind::InvalidComponent, Some("month")));
    assert_eq!(place.to_string(), "the 'month' component could not be parsed at byte index 5");
    let ymd = Description::brackets("[year]/[month]").unwrap();
    let place = locate("2021-13", Format::Described(&ymd)).unwrap();
    assert_eq!((place.index, place.byte, place.kind()), (4, Some(b'/'), Kind::InvalidLiteral));
    assert_eq!(locate("2021/12", Format::Described(&ymd)), None);
    let week = Description::brackets("[year]-W[day]").unwrap();
    let place = locate("2021-w02", Format::Described(&week)).unwrap();
    assert_eq!((place.index, place.byte, place.kind()), (5, Some(b'W'), Kind::InvalidLiteral));
    let place = locate("Sat 02 Jan 2021 03:04 +0607", Format::Rfc2822).unwrap();
    assert_eq!((place.index, place.byte, place.kind()), (3, Some(b','), Kind::InvalidLiteral));
    let place = locate("2021-01-02T03:04:05Zx", Format::Rfc3339).unwrap();
    assert_eq!((place.index, place.byte, place.kind()), (20, None, Kind::Trailing));
}

#[test]
fn columns() {
    let lines = "1970-01-01T00:00:01Z\n\n1970-01-01T00:00:02Zx\n1969-12-31T23:59:59.5-00:01";
    let mut entries = [7; 5];
    let all = column(lines, Format::Rfc3339, &mut entries);
    assert_eq!(all, Column { lines: 4, refused: 2 });
    assert_eq!(entries, [1_000_000_000, i64::MIN, i64::MIN, 59_500_000_000, 7]);
    assert_eq!(column(lines, Format::Rfc3339, &mut entries[..1]), Column { lines: 4, refused: 0 });
    assert_eq!(column("", Format::Rfc3339, &mut []), Column { lines: 0, refused: 0 });
    let days = Description::brackets("[unix_timestamp]").unwrap();
    assert_eq!(column("1\n-1\n", Format::Described(&days), &mut entries), Column { lines: 2, refused: 0 });
    assert_eq!(entries[..2], [1_000_000_000, -1_000_000_000]);
}

#[test]
fn columns_with_returns() {
    let lines = "1970-01-01T00:00:01Z\r\n\r\n1970-01-01T00:00:02Z\r\r\n1969-12-31T23:59:59.5-00:01\r";
    let mut entries = [7; 5];
    assert_eq!(column(lines, Format::Rfc3339, &mut entries), Column { lines: 4, refused: 2 });
    assert_eq!(entries, [1_000_000_000, i64::MIN, i64::MIN, 59_500_000_000, 7]);
    assert_eq!(column(lines, Format::Rfc3339, &mut entries[..1]), Column { lines: 4, refused: 0 });
    let seconds = Description::brackets("[unix_timestamp]").unwrap();
    assert_eq!(column("1\r\n-1\r\n2", Format::Described(&seconds), &mut entries), Column { lines: 3, refused: 0 });
    assert_eq!(entries[..3], [1_000_000_000, -1_000_000_000, 2_000_000_000]);
}

#[test]
fn texts() {
    let m = Moment::parse("1985-04-12T23:20:50.52-08:30", Format::Rfc3339).unwrap();
    assert_eq!(m.text(Format::Rfc3339).unwrap().as_str(), "1985-04-12T23:20:50.52-08:30");
    assert_eq!(m.text(Format::Iso8601).unwrap().to_string(), "1985-04-12T23:20:50.520000000-08:30");
    assert_eq!(m.text(Format::Rfc2822).unwrap().as_str(), "Fri, 12 Apr 1985 23:20:50 -0830");
    let error = Moment { year: 1899, ..m }.text(Format::Rfc2822).unwrap_err();
    assert_eq!((error.kind(), error.component().as_deref()), (Kind::NoText, Some("year")));
    let error = Moment { month: 4, day: 31, ..m }.text(Format::Rfc3339).unwrap_err();
    assert_eq!(error.to_string(), "day is out of range for the other components");
    let ymd = Description::brackets("[year]").unwrap();
    assert_eq!(m.text(Format::Described(&ymd)).unwrap_err().kind(), Kind::Unknown);
}

#[test]
fn texts_by_descriptions() {
    // The example of Apache's documentation of its log format.
    let m = Moment { year: 2000, nanosecond: 0, offset: -25_200, month: 10, day: 10, hour: 13, minute: 55, second: 36 };
    let log = Description::strftime("%d/%b/%Y:%H:%M:%S %z").unwrap();
    assert_eq!(log.format(&m).unwrap().to_str(), Ok("10/Oct/2000:13:55:36 -0700"));
    assert_eq!(Moment::parse(log.format(&m).unwrap().as_bytes(), Format::Described(&log)), Ok(m));
    let form = "[year]-[month]-[day]T[hour]:[minute]:[second].[subsecond][offset_hour sign:mandatory]:[offset_minute]";
    for it in [Description::brackets(form), Description::brackets_1(form)] {
        assert_eq!(it.unwrap().format(&m).unwrap().to_string(), "2000-10-10T13:55:36.0-07:00");
    }
    let optional = Description::brackets("[first [[month repr:short]] [[month]]][optional [ [day]]]").unwrap();
    let text = optional.format(&m).unwrap();
    assert_eq!((format!("{text:>8}"), format!("{text:?}")), ("  Oct 10".to_string(), r#""Oct 10""#.to_string()));
    assert_eq!(text, optional.format(&Moment { year: -1, ..m }).unwrap());
    let bytes = Description::brackets(b"\xff[day]").unwrap();
    let text = bytes.format(&m).unwrap();
    assert_eq!((text.as_bytes(), text.to_str().is_err(), text.to_string()), (&b"\xff10"[..], true, "\u{fffd}10".to_string()));
}

#[test]
fn moments_without_a_text() {
    let m = Moment { year: 2021, nanosecond: 0, offset: 0, month: 1, day: 2, hour: 3, minute: 4, second: 5 };
    let kind_of = |form: &str, m: Moment| {
        let error = Description::brackets(form).unwrap().format(&m).unwrap_err();
        (error.kind(), error.component(), error.to_string())
    };
    let year = Moment { year: 10_000, ..m };
    let wanted = (Kind::NoText, Some("year".to_string()), "the 'year' component has no text in that format".to_string());
    assert_eq!(kind_of("[year range:standard]", year), wanted);
    let wanted = (Kind::NoText, Some("ignore".to_string()), "the 'ignore' component has no text in that format".to_string());
    assert_eq!(kind_of("[ignore count:1]", m), wanted);
    let wanted = (Kind::Range, Some("month".to_string()), "month is out of range".to_string());
    assert_eq!(kind_of("[year]", Moment { month: 13, ..m }), wanted);
    // 51 counts of 20 bytes and 4 bytes are 1024.
    let long = format!("{}....", "[unix_timestamp precision:nanosecond sign:mandatory]".repeat(51));
    let text = Description::brackets(&long).unwrap().format(&m).unwrap();
    assert_eq!(text.to_str(), Ok(&*format!("{}....", "+1609556645000000000".repeat(51))));
    let wanted = (Kind::TextTooLong, None, "the text has more than 1024 bytes".to_string());
    assert_eq!(kind_of(&format!("{long}."), m), wanted);
}
