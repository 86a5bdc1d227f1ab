/* A Kafka cluster of one broker, for tools/checks/try-kafka: the mock cluster of librdkafka, in memory.
 *
 *     kafka_broker {TOPIC PARTITIONS}
 *
 * It has these topics, each of so many partitions, prints its address, and ends when its input does. */
#include <librdkafka/rdkafka.h>
#include <librdkafka/rdkafka_mock.h>
#include <stdio.h>
#include <stdlib.h>
#include <unistd.h>

enum { BROKERS = 1, REPLICAS = 1 };

int main(int count, char **words)
{
    char error[256];
    rd_kafka_conf_t *settings = rd_kafka_conf_new();
    /* Warnings and errors: that this client knows no other broker is none. */
    rd_kafka_conf_set(settings, "log_level", "4", error, sizeof error);
    rd_kafka_t *client = rd_kafka_new(RD_KAFKA_PRODUCER, settings, error, sizeof error);
    if (client == NULL) {
        fprintf(stderr, "kafka_broker: %s\n", error);
        return 1;
    }
    rd_kafka_mock_cluster_t *cluster = rd_kafka_mock_cluster_new(client, BROKERS);
    if (cluster == NULL) {
        fprintf(stderr, "kafka_broker: no cluster\n");
        return 1;
    }
    for (int at = 1; at + 1 < count; at += 2) {
        if (rd_kafka_mock_topic_create(cluster, words[at], atoi(words[at + 1]), REPLICAS)) {
            fprintf(stderr, "kafka_broker: no topic\n");
            return 1;
        }
    }
    printf("%s\n", rd_kafka_mock_cluster_bootstraps(cluster));
    fflush(stdout);
    char byte;
    while (read(STDIN_FILENO, &byte, 1) > 0) {
    }
    rd_kafka_mock_cluster_destroy(cluster);
    rd_kafka_destroy(client);
    return 0;
}
