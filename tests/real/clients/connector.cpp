// Connector/C++, mysql++, SOCI and Qt, one by its macro: connector HOST PORT USER PASSWORD.
#include <cstdlib>
#include <functional>
#include <iostream>
#include <string>
#include <vector>

using std::string;

#if defined(CPPCONN)
#include <cppconn/connection.h>
#include <cppconn/driver.h>
#include <cppconn/exception.h>
#include <cppconn/prepared_statement.h>
#include <cppconn/resultset.h>
#include <cppconn/statement.h>
struct Link {
    sql::Connection *link;
    Link(const string &host, const string &port, const string &user, const string &password)
        : link(get_driver_instance()->connect("tcp://" + host + ":" + port, user, password)) {}
    string first(const string &text) {
        sql::Statement *s = link->createStatement();
        string value;
        if (s->execute(text)) {
            sql::ResultSet *found = s->getResultSet();
            while (found->next()) value = found->getString(1);
            delete found;
        }
        delete s;
        return value;
    }
    string prepared() {
        sql::PreparedStatement *s = link->prepareStatement("SELECT ? + 1");
        s->setInt(1, 41);
        sql::ResultSet *found = s->executeQuery();
        string value;
        while (found->next()) value = found->getString(1);
        delete found;
        delete s;
        return value;
    }
};
#elif defined(MYSQLPP)
#include <mysql++/mysql++.h>
struct Link {
    mysqlpp::Connection link;
    Link(const string &host, const string &port, const string &user, const string &password) : link(true) {
        link.set_option(new mysqlpp::SetCharsetNameOption("utf8mb4"));
        link.connect("", host.c_str(), user.c_str(), password.c_str(), atoi(port.c_str()));
    }
    string first(const string &text) {
        mysqlpp::Query query = link.query(text);
        mysqlpp::StoreQueryResult found = query.store();
        return found.num_rows() ? string(found[found.num_rows() - 1][0].c_str()) : "";
    }
    string prepared() { return first("SELECT 41 + 1"); }
};
#elif defined(SOCI)
#include <soci/mysql/soci-mysql.h>
#include <soci/soci.h>
struct Link {
    soci::session link;
    Link(const string &host, const string &port, const string &user, const string &password)
        : link(soci::mysql, "db=d host=" + host + " port=" + port + " user=" + user + " password=" + password + " charset=utf8mb4") {}
    string first(const string &text) {
        if (text.compare(0, 6, "SELECT") && text.compare(0, 4, "WITH")) { link << text; return ""; }
        string value;
        soci::rowset<soci::row> found = link.prepare << text;
        for (const soci::row &row : found)
            value = row.get_properties(0).get_data_type() == soci::dt_string ? row.get<string>(0)
                : row.get_properties(0).get_data_type() == soci::dt_integer ? std::to_string(row.get<int>(0)) : std::to_string(row.get<long long>(0));
        return value;
    }
    string prepared() { int a = 41, b = 0; link << "SELECT :a + 1", soci::use(a), soci::into(b); return std::to_string(b); }
};
#else
#include <QCoreApplication>
#include <QSqlDatabase>
#include <QSqlError>
#include <QSqlQuery>
#include <QVariant>
#include <stdexcept>
struct Link {
    QSqlDatabase link;
    Link(const string &host, const string &port, const string &user, const string &password) : link(QSqlDatabase::addDatabase("QMYSQL")) {
        link.setHostName(host.c_str());
        link.setPort(atoi(port.c_str()));
        link.setUserName(user.c_str());
        link.setPassword(password.c_str());
        if (!link.open()) throw std::runtime_error(link.lastError().text().toStdString());
    }
    string first(const string &text) {
        QSqlQuery query(link);
        if (!query.exec(QString::fromStdString(text))) throw std::runtime_error(query.lastError().text().toStdString());
        string value;
        while (query.next()) value = query.value(0).toString().toStdString();
        return value;
    }
    string prepared() {
        QSqlQuery query(link);
        if (!query.prepare("SELECT ? + 1")) throw std::runtime_error(query.lastError().text().toStdString());
        query.addBindValue(41);
        if (!query.exec()) throw std::runtime_error(query.lastError().text().toStdString());
        return query.next() ? query.value(0).toString().toStdString() : "no row";
    }
};
#endif

static void show(const string &name, const std::function<string()> &test, const string &wanted) {
    string text;
    try {
        string found = test();
        text = found == wanted ? "ok" : found + " in place of " + wanted;
    } catch (const std::exception &error) {
        text = wanted == "1064" && string(error.what()).find("syntax") != string::npos ? "ok" : error.what();
    }
    std::cout << name << ": " << text.substr(0, 120) << std::endl;
}

int main(int argc, char **argv) {
#if !defined(CPPCONN) && !defined(MYSQLPP) && !defined(SOCI)
    QCoreApplication application(argc, argv);
#endif
    Link *link;
    try {
        link = new Link(argv[1], argv[2], argv[3], argv[4]);
    } catch (const std::exception &error) {
        std::cout << "login: " << error.what() << std::endl;
        return 1;
    }
    show("select", [&] { return link->first("SELECT 41 + 1"); }, "42");
    show("write", [&] {
        link->first("DROP TABLE IF EXISTS d.stacks");
        link->first("CREATE TABLE d.stacks (id INT PRIMARY KEY AUTO_INCREMENT, v VARCHAR(40)) ENGINE=InnoDB CHARACTER SET utf8mb4");
        link->first("INSERT INTO d.stacks (v) VALUES ('a'), ('b')");
        return link->first("SELECT COUNT(*) FROM d.stacks");
    }, "2");
    show("rollback", [&] {
        link->first("BEGIN");
        link->first("INSERT INTO d.stacks (v) VALUES ('c')");
        link->first("ROLLBACK");
        return link->first("SELECT COUNT(*) FROM d.stacks");
    }, "2");
    show("error", [&] { return link->first("SELEC 1"); }, "1064");
    show("text", [&] { return link->first("SELECT 'gr\u00fc\u00dfe'"); }, "gr\u00fc\u00dfe");
    link->first("SET SESSION max_recursive_iterations = 30000");
    show("rows", [&] { return link->first("WITH RECURSIVE n(i) AS (SELECT 1 UNION ALL SELECT i + 1 FROM n WHERE i < 20000) SELECT i FROM n"); }, "20000");
    show("prepared", [&] { return link->prepared(); }, "42");
    show("after", [&] { return link->first("SELECT 43"); }, "43");
    return 0;
}
